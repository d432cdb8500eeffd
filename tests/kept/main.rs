//! Tries an envelope that is kept right over many edits. Its one word is a number.
//!
//! For each N below that number it makes the edits of the file `N.edits` one after the other, over the
//! files `N.line`, `N.train` and `N.plan`, and compares after each, refused ones too, what is kept with
//! what is made anew. It prints a line for each edit: `ok whole`, `ok stalled K`, or `error CODE`.
//!
//! Then it puts a restriction in force and takes it out again at 2,000 places of a line of 500 km, and
//! prints the arrival at its end before, after each `put`, and at last.
//!
//! Where anything differs, or a call that has to succeed doesn't, it ends with a status that isn't 0.

use incr_envelope::Envelope;
use line_tables::{Line, read_line};
use plan_tables::{Plan, read_plan};
use restrictions::{Command, CommandFault, EditFault, Id, InForce, read_command};
use run_io::{HostShelf, Shelf};
use std::alloc::Global;
use std::env;
use std::marker::Brand;
use std::process::ExitCode;
use std::sync::ledger::{Blank, Ledger};
use stock_tables::{Stock, read_stock};
use time_brackets::Bracket;
use unit_rules::{Reach, Steps, Zone};

const BIG: &[u8] = b"line,Big,500000\npoint,500000,E\n";

const STRONG: &[u8] = b"mass = 20000000\nrotating = 0\nlength = 1\ntop = 500\n\
    effort = [[0, 3000000], [500, 3000000]]\nresistance = [0, 0, 0]\nbrake = [[0, 3000], [500, 3000]]\n";

/// The texts of a case.
#[derive(Drop)]
struct Texts {
    line: Vec<u8>,
    train: Vec<u8>,
    plan: Vec<u8>,
    edits: Vec<u8>,
}

impl Texts {
    fn fetched(rt: &HostRuntime, number: u32) -> Option<Texts> {
        Some(Texts {
            line: fetched(rt, number, "line")?,
            train: fetched(rt, number, "train")?,
            plan: fetched(rt, number, "plan")?,
            edits: fetched(rt, number, "edits")?,
        })
    }

    fn tables(&self, alloc: Global) -> Option<(Line, Stock, Plan)> {
        let line = read_line(alloc, &self.line).ok()?;
        let stock = read_stock(alloc, &self.train).ok()?;
        let plan = read_plan(alloc, &self.plan, &line).ok()?;
        Some((line, stock, plan))
    }
}

fn fetched(rt: &HostRuntime, number: u32, kind: &str) -> Option<Vec<u8>> {
    let alloc = rt.alloc();
    let name = format!(in alloc; "{number}.{kind}").ok()?;
    let mut bytes = Vec::new(alloc);
    HostShelf::new(rt).fetch(&name, 1 << 20, &mut bytes).ok()?;
    Some(bytes)
}

/// What an edit answers.
#[derive(Drop)]
enum Reply {
    Ok(Reach),
    Error(u32),
}

fn edited<L: Ledger>(kept: &mut Envelope, line: &[u8], steps: &mut Steps<L>) -> Reply {
    let made = match read_command(line, kept.line().length()) {
        Ok(Command::Put { id, zone }) => kept.put(id, zone, steps),
        Ok(Command::Take { id }) => kept.take(id, steps),
        Ok(_) => return Reply::Error(2),
        Err(CommandFault::Long) => return Reply::Error(1),
        Err(CommandFault::NoCommand) => return Reply::Error(2),
        Err(CommandFault::Spelling) => return Reply::Error(3),
    };
    match made {
        Ok(reach) => Reply::Ok(reach),
        Err(EditFault::Present) => Reply::Error(4),
        Err(EditFault::Absent) => Reply::Error(5),
        Err(EditFault::Full) => Reply::Error(6),
        Err(EditFault::Memory) => Reply::Error(0),
    }
}

/// The restrictions in force, put in force again one after the other.
fn put_again(alloc: Global, force: &InForce) -> Option<InForce> {
    let mut again = InForce::new(alloc);
    for place in 0..force.len() {
        let (id, zone) = force.nth(place);
        again.put(id, zone).ok()?;
    }
    Some(again)
}

/// Whether an envelope is the one that is made anew under what is in force.
fn is_as_anew<L: Ledger>(
    alloc: Global,
    kept: &Envelope,
    texts: &Texts,
    steps: &mut Steps<L>,
) -> Option<bool> {
    let (line, stock, plan) = texts.tables(alloc)?;
    let force = put_again(alloc, kept.in_force())?;
    let anew = Envelope::under(alloc, line, stock, plan, force, steps).ok()?;
    let end = kept.line().length();
    let arrives_alike = (0..end + 1)
        .filter(|point| point % 7 == 0 || *point == end)
        .all(|point| kept.bracket(point, steps) == anew.bracket(point, steps));
    Some(
        arrives_alike
            && kept.speeds() == anew.speeds()
            && kept.brake_list() == anew.brake_list()
            && kept.reach() == anew.reach(),
    )
}

fn try_drawn<L: Ledger>(rt: &HostRuntime, number: u32, steps: &mut Steps<L>) -> Option<()> {
    let alloc = rt.alloc();
    let texts = Texts::fetched(rt, number)?;
    let (line, stock, plan) = texts.tables(alloc)?;
    let mut kept = Envelope::new(alloc, line, stock, plan, steps).ok()?;
    for edit in texts.edits.as_slice().split(|byte| *byte == b'\n') {
        let reply = edited(&mut kept, edit, steps);
        if !is_as_anew(alloc, &kept, &texts, steps)? {
            return None;
        }
        match reply {
            Reply::Ok(Reach::Whole) => println!(rt; "ok whole").ok()?,
            Reply::Ok(Reach::Stalled { k }) => println!(rt; "ok stalled {k}").ok()?,
            Reply::Error(code) => println!(rt; "error {code}").ok()?,
        }
    }
    Some(())
}

fn print_arrival<L: Ledger>(rt: &HostRuntime, kept: &Envelope, steps: &mut Steps<L>) -> Option<()> {
    let Bracket { lo, hi } = kept.bracket(kept.line().length(), steps)?;
    println!(rt; "{lo} {hi}").ok()
}

fn try_many<L: Ledger>(rt: &HostRuntime, steps: &mut Steps<L>) -> Option<()> {
    let alloc = rt.alloc();
    let line = read_line(alloc, BIG).ok()?;
    let stock = read_stock(alloc, STRONG).ok()?;
    let plan = read_plan(alloc, b"", &line).ok()?;
    let mut kept = Envelope::new(alloc, line, stock, plan, steps).ok()?;
    let id = Id::of(b"a")?;
    print_arrival(rt, &kept, steps)?;
    for number in 0..2000 {
        let from = 100_000 + 100 * number;
        let zone = Zone {
            from,
            to: from + 1,
            kmh: 499,
        };
        kept.put(id, zone, steps).ok()?;
        print_arrival(rt, &kept, steps)?;
        kept.take(id, steps).ok()?;
    }
    print_arrival(rt, &kept, steps)
}

fn tried<L: Ledger>(rt: &HostRuntime, blank: Blank) -> Option<()> {
    let mut steps = Steps::<L>::new(blank);
    let word = env::args(rt).ok()?.nth(1)?;
    let count: u32 = word.parse().ok()?;
    for number in 0..count {
        try_drawn(rt, number, &mut steps)?;
    }
    try_many(rt, &mut steps)
}

fn main(rt: HostRuntime) -> ExitCode {
    match tried::<Brand>(&rt, Blank::new(1)) {
        Some(()) => ExitCode::SUCCESS,
        None => ExitCode::FAILURE,
    }
}
