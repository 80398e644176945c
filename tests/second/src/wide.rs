//! Rounding and the way that it went, and whole numbers wide enough for an exact sum of sixteen
//! fractions.

use std::cmp::Ordering;

/// The number of 64-bit digits of a wide number.
const DIGITS: usize = 8;

/// The whole number nearest to `number / divisor`, a half upward.
pub fn rounded(number: u128, divisor: u128) -> u64 {
    let nearest = (2 * number + divisor) / (2 * divisor);
    u64::try_from(nearest).expect("a rounded amount of at most 64 bits")
}

/// Whether a rounded number is its fraction, is below it or is above it.
#[derive(Clone, Copy, Debug, PartialEq, Eq)]
pub enum Way {
    Exact,
    Down,
    Up,
}

impl Way {
    pub const ALL: [Way; 3] = [Way::Exact, Way::Down, Way::Up];

    /// The way to a number that stands so to its fraction.
    fn of(standing: Ordering) -> Way {
        match standing {
            Ordering::Less => Way::Down,
            Ordering::Equal => Way::Exact,
            Ordering::Greater => Way::Up,
        }
    }
}

/// A rounded number and the way that it went, read off the two when the number is there: what it is
/// times the divisor against what was divided.
#[derive(Clone, Copy, Debug, PartialEq, Eq)]
pub struct Rounded {
    pub number: u64,
    pub way: Way,
}

impl Rounded {
    /// A number that was whole before.
    pub fn whole(number: u64) -> Rounded {
        Rounded {
            number,
            way: Way::Exact,
        }
    }

    /// Of `number / divisor`.
    pub fn of(number: u128, divisor: u128) -> Rounded {
        let nearest = rounded(number, divisor);
        let multiple = u128::from(nearest) * divisor;
        Rounded {
            number: nearest,
            way: Way::of(multiple.cmp(&number)),
        }
    }

    /// Of `amount × times / divisor`.
    pub fn of_product(amount: u64, times: u64, divisor: u64) -> Rounded {
        Rounded::of(u128::from(amount) * u128::from(times), divisor.into())
    }

    /// Of wide numbers with a result below 2 to the power 40.
    pub fn of_wide(number: Wide, divisor: Wide) -> Rounded {
        let nearest = rounded_wide(number, divisor);
        let multiple = divisor.times(nearest);
        Rounded {
            number: nearest,
            way: Way::of(multiple.cmp(&number)),
        }
    }
}

/// A whole number below 2 to the power 512, its digits from the lowest to the highest.
#[derive(Clone, Copy, Debug, PartialEq, Eq)]
pub struct Wide([u64; DIGITS]);

impl Wide {
    pub fn new(number: u64) -> Wide {
        let mut digits = [0; DIGITS];
        digits[0] = number;
        Wide(digits)
    }

    pub fn plus(self, other: Wide) -> Wide {
        let mut digits = self.0;
        let mut carry = 0u128;
        for (digit, added) in digits.iter_mut().zip(other.0) {
            let sum = u128::from(*digit) + u128::from(added) + carry;
            *digit = sum as u64;
            carry = sum >> 64;
        }
        assert_eq!(carry, 0, "a sum of at most 512 bits");
        Wide(digits)
    }

    pub fn times(self, factor: u64) -> Wide {
        let mut digits = self.0;
        let mut carry = 0u128;
        for digit in &mut digits {
            let product = u128::from(*digit) * u128::from(factor) + carry;
            *digit = product as u64;
            carry = product >> 64;
        }
        assert_eq!(carry, 0, "a product of at most 512 bits");
        Wide(digits)
    }
}

impl Ord for Wide {
    fn cmp(&self, other: &Wide) -> Ordering {
        self.0.iter().rev().cmp(other.0.iter().rev())
    }
}

impl PartialOrd for Wide {
    fn partial_cmp(&self, other: &Wide) -> Option<Ordering> {
        Some(self.cmp(other))
    }
}

/// The nearest whole number as above, for wide numbers with a result below 2 to the power 40: the
/// greatest q with 2q × divisor at most 2 × number + divisor, found bit by bit.
pub fn rounded_wide(number: Wide, divisor: Wide) -> u64 {
    let limit = number.times(2).plus(divisor);
    let mut nearest = 0;
    for bit in (0..40).rev() {
        let tried = nearest + (1u64 << bit);
        if divisor.times(2 * tried) <= limit {
            nearest = tried;
        }
    }
    nearest
}

#[cfg(test)]
mod tests {
    use super::*;

    #[test]
    fn a_half_goes_upward() {
        assert_eq!(rounded(0, 54), 0);
        assert_eq!(rounded(26, 54), 0);
        assert_eq!(rounded(27, 54), 1);
        assert_eq!(rounded(80, 54), 1);
        assert_eq!(rounded(81, 54), 2);
        assert_eq!(rounded(1, 3), 0);
        assert_eq!(rounded(2, 3), 1);
    }

    #[test]
    fn a_half_goes_up_and_a_third_down() {
        for (number, nearest, way) in [
            (0, 0, Way::Exact),
            (1, 0, Way::Down),
            (26, 0, Way::Down),
            (27, 1, Way::Up),
            (53, 1, Way::Up),
            (54, 1, Way::Exact),
            (80, 1, Way::Down),
            (81, 2, Way::Up),
        ] {
            let expected = Rounded {
                number: nearest,
                way,
            };
            assert_eq!(Rounded::of(number.into(), 54), expected);
            assert_eq!(Rounded::of_product(number, 10, 540), expected);
            let (number, divisor) = (Wide::new(number), Wide::new(54));
            assert_eq!(Rounded::of_wide(number, divisor), expected);
        }
    }

    /// What is left over decides too: none is exact, less than half is down, the others are up.
    #[test]
    fn ways_are_those_of_the_rest() {
        for number in 0..200u64 {
            for divisor in 1..40u64 {
                let way = match number % divisor {
                    0 => Way::Exact,
                    rest if 2 * rest < divisor => Way::Down,
                    _ => Way::Up,
                };
                assert_eq!(Rounded::of(number.into(), divisor.into()).way, way);
                let wide = Rounded::of_wide(Wide::new(number), Wide::new(divisor));
                assert_eq!(wide.way, way);
            }
        }
    }

    #[test]
    fn both_roundings_agree() {
        for number in 0..200u64 {
            for divisor in 1..40u64 {
                let wide = rounded_wide(Wide::new(number), Wide::new(divisor));
                assert_eq!(wide, rounded(number.into(), divisor.into()));
            }
        }
    }

    #[test]
    fn carries_go_up() {
        let top = Wide::new(u64::MAX);
        let square = top.times(u64::MAX);
        assert!(square > top);
        assert_eq!(square.plus(top), top.times(u64::MAX).plus(top));
        assert_eq!(rounded_wide(square.times(77), square), 77);
    }
}
