//! Prints made-up cases, those of the numbers that are its words: for each of the four texts of a case a
//! line `# NUMBER NAME`, with the name of its file, and then the text.
//!
//! Where a word is no number, or a call doesn't succeed, it ends with a status that isn't 0.

use made_cases::make_case;
use run_io::{HostSink, Sink, write_whole};
use std::alloc::Global;
use std::process::ExitCode;
use std::{env, io};

fn print_case<K: Sink>(alloc: Global, word: &str, out: &mut K) -> Option<()> {
    let made = make_case(alloc, word.parse().ok()?).ok()?;
    let texts = [
        ("line.csv", &made.line),
        ("stock.toml", &made.stock),
        ("plan.csv", &made.plan),
        ("commands.txt", &made.commands),
    ];
    for (name, text) in texts {
        let head = format!(in alloc; "# {word} {name}\n").ok()?;
        write_whole(out, head.as_bytes()).ok()?;
        write_whole(out, text).ok()?;
    }
    Some(())
}

fn tried(rt: &HostRuntime) -> Option<()> {
    let mut out = HostSink::new(io::writer(rt));
    for word in env::args(rt).ok()?.skip(1) {
        print_case(rt.alloc(), &word, &mut out)?;
    }
    Some(())
}

fn main(rt: HostRuntime) -> ExitCode {
    match tried(&rt) {
        Some(()) => ExitCode::SUCCESS,
        None => ExitCode::FAILURE,
    }
}
