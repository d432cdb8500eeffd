//! Division by a number that stays the same: a product takes the machine less time.

/// A number of at least 1, and 2^64 - 1 by it, rounded down.
pub struct Divisor {
    by: i64,
    inverse: u64,
}

impl Divisor {
    pub fn new(by: i64) -> Divisor {
        Divisor {
            by,
            inverse: u64::MAX / by as u64,
        }
    }

    /// The quotient, rounded down.
    pub fn floor(&self, number: i64) -> i64 {
        if number < 0 {
            return -1 - self.floor_above(-1 - number);
        }
        self.floor_above(number)
    }

    /// The quotient of a number of at least 0. The upper half of the product is it, or one less.
    fn floor_above(&self, number: i64) -> i64 {
        let product = u128::from(number as u64) * u128::from(self.inverse);
        let guess = (product >> 64) as i64;
        guess + i64::from(number - guess * self.by >= self.by)
    }

    /// `a * b` by this number, rounded down.
    pub fn part(&self, a: i64, b: i64) -> i64 {
        match a.checked_mul(b) {
            Some(product) => self.floor(product),
            None => (i128::from(a) * i128::from(b)).div_euclid(i128::from(self.by)) as i64,
        }
    }
}
