//! The times of a run, in whole nanoseconds.

/// Two metres, in ns times 0.00001 km/h.
const TWO_METRES: u64 = 720_000_000_000_000;

/// The least and the most that a time may be.
#[derive(Clone, Copy, Default)]
pub struct Bracket {
    pub lo: u64,
    pub hi: u64,
}

/// The speed of a squared speed in 0.00001 km/h, rounded down and up.
#[derive(Clone, Copy)]
struct Speed {
    down: u64,
    up: u64,
}

impl Speed {
    /// Of a number below 2^52 a float is exact, and its root is rounded past no whole number.
    fn of(squared: u32) -> Speed {
        let square = 1_000_000 * u64::from(squared);
        let down = (square as f64).sqrt() as u64;
        Speed {
            down,
            up: down + u64::from(down * down < square),
        }
    }
}

/// The time of a metre, by the speeds at its ends.
fn metre(from: Speed, to: Speed) -> Bracket {
    Bracket {
        lo: TWO_METRES / (from.up + to.up),
        hi: (TWO_METRES - 1) / (from.down + to.down) + 1,
    }
}

/// The times from the start of a line to some of its points.
pub struct Times {
    points: Vec<usize>,
    sums: Vec<Bracket>,
}

impl Times {
    /// The times of a run to these points, in any order.
    pub fn new(mut points: Vec<usize>, run: &[u32]) -> Times {
        points.sort_unstable();
        points.dedup();
        let mut sums = Vec::with_capacity(points.len());
        let mut sum = Bracket::default();
        let mut from = 0;
        let mut before = run[0];
        let mut speed = Speed::of(before);
        let mut time = Bracket::default(); // of a metre at one speed, where the last was one
        let mut is_level = false;
        for &point in &points {
            for &after in &run[from + 1..=point] {
                if after != before || !is_level {
                    let next = if after == before {
                        speed
                    } else {
                        Speed::of(after)
                    };
                    time = metre(speed, next);
                    is_level = after == before;
                    (before, speed) = (after, next);
                }
                sum.lo += time.lo;
                sum.hi += time.hi;
            }
            sums.push(sum);
            from = point;
        }
        Times { points, sums }
    }

    /// The time to a point, which is one of these.
    pub fn to(&self, point: usize) -> Bracket {
        self.sums[self.points.partition_point(|&before| before < point)]
    }
}
