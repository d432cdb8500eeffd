//! The two walks of a train over a line by a plan.

use crate::files::{Line, Plan};
use crate::stretches::{caps_of, pulls_of, Limit, Stretches};
use crate::train::{squared, Train};

pub struct Walks<'a> {
    train: &'a Train,
    length: usize,
    caps: Stretches<usize>,
    pulls: Stretches<i64>,
}

impl<'a> Walks<'a> {
    pub fn new(line: &Line, train: &'a Train, plan: &Plan) -> Walks<'a> {
        let limits = line.limits.iter().map(|zone| Limit::of(zone, train.length));
        let stops = plan.calls.iter().filter(|call| call.dwell.is_some());
        let bounds = stops
            .map(|call| Limit::at(call.at, 0))
            .chain([Limit::at(0, plan.enter), Limit::at(line.length, plan.leave)]);
        Walks {
            train,
            length: line.length,
            caps: caps_of(limits.chain(bounds).collect(), train.top, line.length),
            pulls: pulls_of(line, train),
        }
    }

    /// The braking list.
    pub fn back(&self) -> Vec<u32> {
        let mut speeds = vec![0; self.length + 1];
        let mut pull = self.pulls.len() - 1;
        let mut kmh = 0;
        let mut speed = squared(self.caps[self.caps.len() - 2].1);
        let mut point = self.length;
        speeds[point] = speed as u32;
        for &(from, cap) in self.caps.iter().rev().skip(1) {
            let most = squared(cap);
            // From a cap the train can brake to the same one, so before it there is no other speed.
            while point > from && speed != most {
                point -= 1;
                while self.pulls[pull].0 > point {
                    pull -= 1;
                }
                speed = self.train.before(cap, self.pulls[pull].1, speed, &mut kmh);
                speeds[point] = speed as u32;
            }
            speeds[from..point].fill(speed as u32);
            point = from;
        }
        speeds
    }

    /// Makes the envelope of the braking list, or gives the point at which the train is stalled.
    pub fn on(&self, speeds: &mut [u32]) -> Option<usize> {
        let mut kmh = 0;
        let mut speed = i64::from(speeds[0]);
        for pair in self.pulls.windows(2) {
            let ((from, pull), (to, _)) = (pair[0], pair[1]);
            let is_held = pull <= self.train.least_push;
            for (cell, next) in speeds[from + 1..=to].iter_mut().enumerate() {
                let most = i64::from(*next);
                let before = speed;
                speed = if is_held && most <= speed {
                    most
                } else {
                    self.train.up(speed, pull, &mut kmh).min(most)
                };
                if speed < 0 || speed == 0 && before == 0 {
                    return Some(from + cell + 1);
                }
                *next = speed as u32;
            }
        }
        None
    }
}
