//! The tables of a train, and what they make of a speed.

use crate::divisor::Divisor;
use crate::files::Keys;

/// The squared speed of a speed in whole km/h.
pub fn squared(kmh: usize) -> i64 {
    10_000 * (kmh * kmh) as i64
}

/// The difference of the squared speeds of a speed in whole km/h and of the next.
fn width(kmh: usize) -> i64 {
    10_000 * (2 * kmh as i64 + 1)
}

/// The values at 0, 1, .. km/h of a table given by rows of a speed in km/h and a value.
fn grid(rows: &[i64]) -> Vec<i64> {
    let mut values = vec![rows[1]];
    for row in rows.windows(4).step_by(2) {
        let (low, first, high, last) = (row[0], row[1], row[2], row[3]);
        values.extend(
            (low + 1..=high).map(|k| first + ((last - first) * (k - low)).div_euclid(high - low)),
        );
    }
    values
}

pub struct Train {
    pub mass: i64,
    pub moved: i64,
    by_moved: Divisor,
    pub length: usize,
    pub top: usize,
    /// Push and braking at each whole km/h.
    pub pushes: Vec<i64>,
    pub brakings: Vec<i64>,
    /// The squared speed a metre on, at full brakes on no steep hill, from each whole km/h.
    braked: Vec<i64>,
    /// By how much the squared speed grows from each whole km/h to the next, and by how much what
    /// full brakes leave of it on a metre does.
    by_width: Vec<Divisor>,
    by_rise: Vec<Divisor>,
    /// What a pull is divided by.
    by_length: Divisor,
    /// The least push at any speed: at no greater pull does a train at full effort get slower.
    pub least_push: i64,
    /// The greatest pull at which no hill takes more than the brakes do, at any speed.
    gentle: i64,
}

impl Train {
    pub fn new(keys: &Keys) -> Train {
        let (mass, top) = (keys["mass"][0], keys["top"][0] as usize);
        let resistance = &keys["resistance"];
        let moved = (mass * (1000 + keys["rotating"][0]) + 999) / 1000;
        let push = |(k, effort): (usize, i64)| {
            let k = k as i64;
            let held = 1000 * resistance[0] + resistance[1] * k + resistance[2] * k * k;
            259_200 * effort - (1296 * held + 4) / 5
        };
        let pushes: Vec<i64> = grid(&keys["effort"])
            .into_iter()
            .enumerate()
            .map(push)
            .collect();
        let rates = grid(&keys["brake"]);
        let brakings: Vec<i64> = rates.iter().map(|rate| 2592 * rate / 10).collect();
        let least_push = pushes.iter().copied().min().unwrap_or(0);
        let least_braking = brakings.iter().copied().min().unwrap_or(0);
        let length = keys["length"][0] as usize;
        let braked: Vec<i64> = (0..=top).map(|k| squared(k) - brakings[k]).collect();
        Train {
            mass,
            moved,
            by_moved: Divisor::new(moved),
            length,
            top,
            by_width: (0..top).map(|k| Divisor::new(width(k))).collect(),
            by_rise: braked
                .windows(2)
                .map(|pair| Divisor::new((pair[1] - pair[0]).max(1)))
                .collect(),
            by_length: Divisor::new(625 * length as i64),
            braked,
            least_push,
            gentle: least_push + moved * least_braking,
            pushes,
            brakings,
        }
    }

    /// The pull where the gradients of the cells under the train have this sum.
    pub fn pull(&self, sum: i64) -> i64 {
        -self.by_length.part(-sum, self.mass * 158_922)
    }

    /// The push at a squared speed from this one of whole km/h on, below the next.
    fn push(&self, speed: i64, kmh: usize) -> i64 {
        let over = speed - squared(kmh);
        if over == 0 {
            return self.pushes[kmh];
        }
        self.pushes[kmh] + self.by_width[kmh].part(self.pushes[kmh + 1] - self.pushes[kmh], over)
    }

    /// The greatest squared speed a metre on, at full effort. `kmh` is where the speed is looked
    /// for first among those of whole km/h, and is left where it lies.
    pub fn up(&self, speed: i64, pull: i64, kmh: &mut usize) -> i64 {
        while squared(*kmh) > speed {
            *kmh -= 1;
        }
        while squared(*kmh + 1) <= speed {
            *kmh += 1;
        }
        speed + self.by_moved.floor(self.push(speed, *kmh) - pull)
    }

    /// The greatest squared speed up to that of `cap` km/h from which the train can brake to
    /// `after` on a metre. `kmh` is where it is looked for first, and is left where it was found.
    pub fn before(&self, cap: usize, pull: i64, after: i64, kmh: &mut usize) -> i64 {
        if self.braked[cap] <= after {
            return squared(cap);
        }
        while self.braked[*kmh] > after {
            *kmh -= 1;
        }
        while self.braked[*kmh + 1] <= after {
            *kmh += 1;
        }
        // Of d above the squared speed of `kmh` the brakes leave `d - floor(climb * d / width)`
        // above what they leave of that, which is to be `over` at most: so d is the greatest with
        // `d * (width - climb) <= over * width`.
        let mut over = after - self.braked[*kmh];
        if self.brakings[*kmh + 1] != self.brakings[*kmh] {
            over = self.by_rise[*kmh].floor(over * width(*kmh));
        }
        let speed = squared(*kmh) + over;
        if pull <= self.gentle {
            return speed;
        }
        self.before_hill(speed, squared(cap), pull, after)
    }

    /// The greatest squared speed up to `most` from which a hill slows the train to `after` on a
    /// metre, or `least` where there is none above it.
    fn before_hill(&self, least: i64, most: i64, pull: i64, after: i64) -> i64 {
        let mut kmh = 0;
        if self.up(least + 1, pull, &mut kmh) > after {
            return least;
        }
        let (mut below, mut above) = (least + 1, most + 1);
        while above - below > 1 {
            let middle = (below + above) / 2;
            if self.up(middle, pull, &mut kmh) <= after {
                below = middle;
            } else {
                above = middle;
            }
        }
        below
    }
}
