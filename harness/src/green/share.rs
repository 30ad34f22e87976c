//! A share that was measured, and how far it is from the one that is due.

/// Farther off than so many standard deviations no share is that comes by chance: by the normal curve one in 500 million is, and some more
/// where few functions are green.
pub const MOST_OFF: f64 = 6.0;

/// How many of the functions have a proof that is accepted.
#[derive(Clone, Copy, Debug)]
pub struct Share {
    pub green: u64,
    pub functions: u64,
}

impl Share {
    pub fn measured(&self) -> f64 {
        self.green as f64 / self.functions as f64
    }

    /// By how many standard deviations it is above a chance, or, with a minus, below it. A chance of 0 or 1 leaves no room.
    pub fn off(&self, chance: f64) -> f64 {
        let apart = self.measured() - chance;
        if apart == 0.0 {
            0.0
        } else {
            apart / (chance * (1.0 - chance) / self.functions as f64).sqrt()
        }
    }
}

#[cfg(test)]
mod tests {
    use super::*;

    /// Of 100 with a chance of a half the standard deviation is 5, of 10,000 with a tenth it is 30.
    #[test]
    fn by_hand() {
        let off = |green, functions, chance: f64| Share { green, functions }.off(chance);
        for (green, functions, chance, due) in [(60, 100, 0.5, 2.0), (35, 100, 0.5, -3.0), (50, 100, 0.5, 0.0), (1180, 10_000, 0.1, 6.0)] {
            assert!((off(green, functions, chance) - due).abs() < 1e-9, "{green} of {functions}");
        }
        assert_eq!((off(0, 100, 0.0), off(1, 100, 0.0), off(99, 100, 1.0)), (0.0, f64::INFINITY, f64::NEG_INFINITY));
    }
}
