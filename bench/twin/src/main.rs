//! A plain program that answers `caps`, `stock`, `rise`, `brakes`, `envelope` and `plan` as rtime
//! does, for files that are accepted: what the time and the memory of the proved program are held
//! against.
//!
//! It is written from docs/METHOD.md and docs/FORMATS.md, by the simplest fast means: limits and
//! gradients as sorted stretches, one walk back, one walk on, one pass for the times, and one
//! buffer for the text. It proves nothing and refuses nothing: of a file that breaks a rule it says
//! anything.
//!
//! Places are in metres, speeds in km/h, squared speeds in (0.01 km/h)², as in docs/METHOD.md.

mod divisor;
mod files;
mod stretches;
mod text;
mod times;
mod timetable;
mod train;
mod walks;

use std::env;
use std::process::ExitCode;

use files::{read_line, read_plan, read_stock, Line, Plan};
use stretches::{caps_of, pulls_of, Limit};
use text::print;
use train::{squared, Train};
use walks::Walks;

const DONE: u8 = 0;
const USAGE: u8 = 2;
const STALLED: u8 = 6;

/// An exit status, or what left no answer.
type Answer = Result<u8, String>;

fn main() -> ExitCode {
    let words: Vec<String> = env::args().skip(1).collect();
    let words: Vec<&str> = words.iter().map(String::as_str).collect();
    let answer = match words[..] {
        ["caps", line, length, top] => caps(line, length, top),
        ["stock", stock] => tables(stock),
        ["rise", line, stock, kmh] => rise(line, stock, kmh),
        ["brakes", line, stock] => brakes(line, stock),
        ["envelope", line, stock] => envelope(line, stock),
        ["plan", line, stock, plan, "--print", kind @ ("envelope" | "timetable")] => {
            planned(line, stock, plan, kind)
        }
        _ => usage(),
    };
    ExitCode::from(answer.unwrap_or_else(|trouble| {
        eprintln!("twin: {trouble}");
        1
    }))
}

fn usage() -> Answer {
    println!("usage");
    Ok(USAGE)
}

fn number(word: &str) -> Result<usize, String> {
    word.parse().map_err(|_| format!("{word} is no number"))
}

fn caps(line: &str, length: &str, top: &str) -> Answer {
    let (length, top) = (number(length)?, number(top)?);
    let line = read_line(line)?;
    let limits = line.limits.iter().map(|zone| Limit::of(zone, length));
    let caps = caps_of(limits.collect(), top, line.length);
    let mut at = 0;
    print(line.length + 1, |point| {
        while caps[at + 1].0 <= point {
            at += 1;
        }
        [squared(caps[at].1)]
    })?;
    Ok(DONE)
}

fn tables(stock: &str) -> Answer {
    let train = Train::new(&read_stock(stock)?);
    let (moved, mass, length, top) = (train.moved, train.mass, train.length, train.top);
    println!("{moved} {mass} {length} {top}");
    print(top + 1, |kmh| [train.pushes[kmh], train.brakings[kmh]])?;
    Ok(DONE)
}

fn rise(line: &str, stock: &str, kmh: &str) -> Answer {
    let kmh = number(kmh)?;
    let line = read_line(line)?;
    let train = Train::new(&read_stock(stock)?);
    let kmh = kmh.min(train.top);
    let (speed, push) = (squared(kmh), train.pushes[kmh]);
    let slowed = speed - train.brakings[kmh];
    let pulls = pulls_of(&line, &train);
    let (mut at, mut past) = (0, 0);
    let (mut pull, mut up) = (0, 0);
    print(line.length, |cell| {
        if cell == past {
            (pull, past) = (pulls[at].1, pulls[at + 1].0);
            up = speed + (push - pull).div_euclid(train.moved);
            at += 1;
        }
        [pull, up, up.min(slowed)]
    })?;
    Ok(DONE)
}

fn brakes(line: &str, stock: &str) -> Answer {
    let line = read_line(line)?;
    let train = Train::new(&read_stock(stock)?);
    print_list(&Walks::new(&line, &train, &Plan::default()).back())
}

fn envelope(line: &str, stock: &str) -> Answer {
    let line = read_line(line)?;
    let train = Train::new(&read_stock(stock)?);
    run_by(&line, &train, &Plan::default(), "envelope")
}

fn planned(line: &str, stock: &str, plan: &str, kind: &str) -> Answer {
    let line = read_line(line)?;
    let train = Train::new(&read_stock(stock)?);
    run_by(&line, &train, &read_plan(plan, &line)?, kind)
}

/// Prints the run by a plan in one of its two kinds, or where the train is stalled.
fn run_by(line: &Line, train: &Train, plan: &Plan, kind: &str) -> Answer {
    let walks = Walks::new(line, train, plan);
    let mut speeds = walks.back();
    if let Some(point) = walks.on(&mut speeds) {
        println!("stalled {point}");
        return Ok(STALLED);
    }
    match kind {
        "timetable" => timetable::print(plan, &speeds).map(|()| DONE),
        _ => print_list(&speeds),
    }
}

/// Prints a list: a line `POINT SQUARED_SPEED` for each point.
fn print_list(speeds: &[u32]) -> Answer {
    print(speeds.len(), |point| [i64::from(speeds[point])])?;
    Ok(DONE)
}
