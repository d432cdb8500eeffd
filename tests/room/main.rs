//! Makes room for one restriction and puts one in force, over a line of 2 m. It prints `no room` where memory
//! is wanted before, and else what the put answers: `put`, or `refused`.

use incr_envelope::Envelope;
use line_tables::read_line;
use plan_tables::read_plan;
use restrictions::Id;
use std::alloc::Global;
use std::marker::Brand;
use std::process::ExitCode;
use std::sync::ledger::{Blank, Ledger};
use stock_tables::read_stock;
use unit_rules::{Steps, Zone};

const LINE: &[u8] = b"line,Two,2\npoint,2,End\n";

const TRAIN: &[u8] = b"mass = 259200\nrotating = 0\nlength = 10\ntop = 60\n\
    effort = [[0, 20000], [60, 20000]]\nresistance = [0, 0, 0]\nbrake = [[0, 100], [60, 100]]\n";

const SLOW: Zone = Zone {
    from: 0,
    to: 2,
    kmh: 1,
};

/// An envelope with room for one restriction more, where memory is found.
fn with_room<L: Ledger>(alloc: Global, steps: &mut Steps<L>) -> Option<Envelope> {
    let line = read_line(alloc, LINE).ok()?;
    let stock = read_stock(alloc, TRAIN).ok()?;
    let plan = read_plan(alloc, b"", &line).ok()?;
    let mut envelope = Envelope::new(alloc, line, stock, plan, steps).ok()?;
    envelope.reserve(1).ok()?;
    Some(envelope)
}

/// What becomes of a put after room was made for it.
fn answer<L: Ledger>(alloc: Global, blank: Blank) -> Option<&'static str> {
    let mut steps = Steps::<L>::new(blank);
    let id = Id::of(b"a")?;
    let Some(mut envelope) = with_room(alloc, &mut steps) else {
        return Some("no room");
    };
    match envelope.put(id, SLOW, &mut steps) {
        Ok(_) => Some("put"),
        Err(_) => Some("refused"),
    }
}

fn main(rt: HostRuntime) -> ExitCode {
    let Some(answer) = answer::<Brand>(rt.alloc(), Blank::new(1)) else {
        return ExitCode::FAILURE;
    };
    match println!(rt; "{answer}") {
        Ok(()) => ExitCode::SUCCESS,
        Err(_) => ExitCode::FAILURE,
    }
}
