//! The timetable of a run by a plan.

use std::fmt::Write;

use crate::files::{Call, Kind, Plan, Section};
use crate::text;
use crate::times::Times;

const SECOND: u64 = 1_000_000_000; // ns
const MILLISECOND: u64 = 1_000_000; // ns

/// A section, with the most that a time to its beginning and one over it may be, in ns, and with
/// what it adds in all, in ms.
struct Spread<'a> {
    section: &'a Section,
    begin: u64,
    time: u64,
    amount: u64,
}

impl<'a> Spread<'a> {
    fn new(section: &'a Section, times: &Times) -> Spread<'a> {
        let begin = times.to(section.from).hi;
        let time = times.to(section.to).hi - begin;
        let amount = section.amount as u64;
        let metres = (section.to - section.from) as u64;
        Spread {
            section,
            begin,
            time,
            amount: match section.kind {
                Kind::Percent => part_above(time, amount, SECOND),
                Kind::Per100Km => (metres * amount + 99) / 100,
                Kind::Fixed => 1000 * amount,
            },
        }
    }

    /// What it adds at a point in it to which a train takes so many ns at most.
    fn share(&self, hi: u64) -> u64 {
        (u128::from(self.amount) * u128::from(hi - self.begin) / u128::from(self.time)) as u64
    }
}

/// `a * b` by a number, rounded up.
fn part_above(a: u64, b: u64, by: u64) -> u64 {
    let by = u128::from(by);
    ((u128::from(a) * u128::from(b) + by - 1) / by) as u64
}

struct Row<'a> {
    at: usize,
    kind: &'static str,
    dwell: u64, // s
    name: &'a str,
}

impl<'a> Row<'a> {
    fn end(at: usize, kind: &'static str) -> Row<'a> {
        Row {
            at,
            kind,
            dwell: 0,
            name: "-",
        }
    }

    fn call(call: &'a Call) -> Row<'a> {
        Row {
            at: call.at,
            kind: if call.dwell.is_some() { "stop" } else { "pass" },
            dwell: call.dwell.unwrap_or(0) as u64,
            name: &call.name,
        }
    }
}

/// Prints a row for the departure, for each call, and for the arrival at the end of the line.
pub fn print(plan: &Plan, run: &[u32]) -> Result<(), String> {
    let end = run.len() - 1;
    let mut rows = vec![Row::end(0, "start")];
    rows.extend(plan.calls.iter().map(Row::call));
    rows.push(Row::end(end, "end"));
    let mut points: Vec<usize> = rows.iter().map(|row| row.at).collect();
    points.extend(plan.sections.iter().flat_map(|it| [it.from, it.to]));
    let times = Times::new(points, run);
    let spreads = plan.sections.iter().map(|it| Spread::new(it, &times));
    let mut spreads = spreads.peekable();
    let mut ended = 0; // ms: what the sections add that have ended
    let mut before = SECOND * plan.depart as u64; // ns: with the dwells before the row
    let mut table = String::new();
    for row in rows {
        let time = times.to(row.at);
        while let Some(spread) = spreads.next_if(|spread| spread.section.to <= row.at) {
            ended += spread.amount;
        }
        let added = match spreads.peek() {
            Some(spread) if spread.section.from < row.at => ended + spread.share(time.hi),
            _ => ended,
        };
        let (lo, hi) = (before + time.lo, before + time.hi);
        let dwell = SECOND * row.dwell;
        let planned = (hi + MILLISECOND - 1) / MILLISECOND + added;
        let _ = write!(table, "{} {} {lo} {hi} ", row.at, row.kind);
        let _ = write!(table, "{} {} {added} ", lo + dwell, hi + dwell);
        let _ = writeln!(table, "{planned} {}", row.name);
        if row.at < end {
            before += dwell;
        }
    }
    text::write(table.as_bytes())
}
