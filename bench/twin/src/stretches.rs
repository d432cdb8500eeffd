//! What lies along a line, as stretches of one value.

use std::cmp::Reverse;
use std::collections::BinaryHeap;

use crate::files::{Line, Zone};
use crate::train::Train;

/// Values by place: each holds from its place to that of the next. The first place is 0, and the
/// last lies past every other and has no value of its own.
pub type Stretches<T> = Vec<(usize, T)>;

/// The last place of stretches.
const PAST: usize = usize::MAX;

/// A greatest speed in km/h, from a point up to and with another.
pub struct Limit {
    pub from: usize,
    pub last: usize,
    pub kmh: usize,
}

impl Limit {
    /// A limit of a line file, which binds until the tail of a train of so many metres has left it.
    pub fn of(zone: &Zone, length: usize) -> Limit {
        Limit {
            from: zone.from,
            last: zone.to + length,
            kmh: zone.value as usize,
        }
    }

    /// A limit at one point alone; a stand where it is 0.
    pub fn at(point: usize, kmh: usize) -> Limit {
        Limit {
            from: point,
            last: point,
            kmh,
        }
    }
}

/// The greatest speed in km/h at the points of a line: the least of the top speed and of the limits
/// that bind there.
pub fn caps_of(mut limits: Vec<Limit>, top: usize, length: usize) -> Stretches<usize> {
    limits.sort_unstable_by_key(|limit| limit.from);
    let mut breaks = vec![0];
    breaks.extend(limits.iter().flat_map(|limit| [limit.from, limit.last + 1]));
    breaks.sort_unstable();
    breaks.dedup();
    let mut coming = limits.iter().peekable();
    let mut binding = BinaryHeap::new();
    let mut caps: Stretches<usize> = Vec::new();
    for at in breaks.into_iter().take_while(|&at| at <= length) {
        while let Some(limit) = coming.next_if(|limit| limit.from == at) {
            binding.push(Reverse((limit.kmh, limit.last)));
        }
        while matches!(binding.peek(), Some(&Reverse((_, last))) if last < at) {
            binding.pop();
        }
        let cap = binding
            .peek()
            .map_or(top, |&Reverse((kmh, _))| kmh.min(top));
        if !matches!(caps.last(), Some(&(_, before)) if before == cap) {
            caps.push((at, cap));
        }
    }
    caps.push((PAST, 0));
    caps
}

/// The pull of the gradient at the cells of a line: that of the mean gradient under the train.
///
/// The sum of the gradients under the train changes by one and the same number from cell to cell,
/// but where its head or its tail comes to another gradient.
pub fn pulls_of(line: &Line, train: &Train) -> Stretches<i64> {
    let mut turns = vec![(0, 0), (line.length, 0)];
    for &Zone { from, to, value } in &line.gradients {
        turns.extend([(from, value), (to, -value)]);
        turns.extend([(from + train.length, -value), (to + train.length, value)]);
    }
    turns.retain(|&(cell, _)| cell <= line.length);
    turns.sort_unstable();
    let (mut sum, mut change) = (0, 0);
    let mut pulls: Stretches<i64> = Vec::new();
    for pair in turns.windows(2) {
        let (from, to) = (pair[0].0, pair[1].0);
        change += pair[0].1;
        if change == 0 && from < to {
            pulls.push((from, train.pull(sum)));
        } else if change != 0 {
            for cell in from..to {
                sum += change;
                pulls.push((cell, train.pull(sum)));
            }
        }
    }
    pulls.push((line.length, 0));
    pulls
}
