//! Exact fractions in lowest terms.

pub fn greatest_common_divisor(one: u64, other: u64) -> u64 {
    match other {
        0 => one,
        _ => greatest_common_divisor(other, one % other),
    }
}

/// A whole number and a fraction below 1 beside it, in lowest terms: 0/1 where there is none.
#[derive(Clone, Copy, Debug, PartialEq, Eq)]
pub struct Mixed {
    pub whole: u64,
    pub number: u64,
    pub divisor: u64,
}

impl Mixed {
    /// That of `number / divisor`.
    pub fn of(number: u64, divisor: u64) -> Mixed {
        let rest = number % divisor;
        let common = greatest_common_divisor(divisor, rest);
        Mixed {
            whole: number / divisor,
            number: rest / common,
            divisor: divisor / common,
        }
    }

    pub fn whole(number: u64) -> Mixed {
        Mixed::of(number, 1)
    }

    /// The fraction beside the whole number, if it is not nought.
    pub fn fraction(&self) -> Option<(u64, u64)> {
        (self.number != 0).then_some((self.number, self.divisor))
    }
}

#[cfg(test)]
mod tests {
    use super::*;

    fn of(number: u64, divisor: u64) -> (u64, u64, u64) {
        let given = Mixed::of(number, divisor);
        (given.whole, given.number, given.divisor)
    }

    #[test]
    fn lowest_terms() {
        assert_eq!(of(0, 7), (0, 0, 1));
        assert_eq!(of(7, 7), (1, 0, 1));
        assert_eq!(of(1_800, 2_250), (0, 4, 5));
        assert_eq!(of(304_000, 300), (1_013, 1, 3));
        assert_eq!(of(2_260_800, 2_580), (876, 12, 43));
        assert_eq!(Mixed::whole(9).fraction(), None);
    }

    /// Whole number and fraction together are what was divided.
    #[test]
    fn nothing_is_lost() {
        for number in 0..300 {
            for divisor in 1..60 {
                let given = Mixed::of(number, divisor);
                let together = given.whole * given.divisor + given.number;
                assert_eq!(together * divisor, number * given.divisor);
                assert!(given.number < given.divisor);
                let common = greatest_common_divisor(given.divisor, given.number);
                assert_eq!(common, 1);
            }
        }
    }
}
