//! The 2008 Section: ten pays and the best three consecutive years among them.

use crate::wide::Rounded;
use crate::{unless, LARGEST_PAY};
use std::ops::RangeInclusive;

/// Service days that give a whole pay as 2008 pension: 60 years of 365 days.
const DAYS_TO_A_PAY: u64 = 60 * 365;

/// The most days of service.
pub const MOST_DAYS: u64 = 16_425;

/// Pays and service days of the 2008 Section.
#[derive(Clone, Copy, Debug, PartialEq, Eq)]
pub struct TenPays {
    /// Years 10, 9, .. 1, the oldest first.
    pub pays: [u64; 10],
    pub days: u64,
}

impl TenPays {
    /// The years in which three consecutive years can end; year 1 is the last of all.
    pub fn last_years() -> RangeInclusive<usize> {
        1..=8
    }

    /// The eleven numbers of an 08, in their order there.
    pub fn of(numbers: &[u64; 11]) -> TenPays {
        let [pays @ .., days] = *numbers;
        TenPays { pays, days }
    }

    /// Refusal 27.
    pub fn tried(&self) -> Result<(), u64> {
        unless(self.pays.iter().all(|&pay| pay <= LARGEST_PAY), 27)?;
        unless(self.days <= MOST_DAYS, 27)
    }

    /// The three pays whose last is that of the year.
    pub fn three(&self, last_year: usize) -> &[u64] {
        let mut threes = self.pays.windows(3).rev();
        threes.nth(last_year - 1).expect("one of the eight threes")
    }

    /// The same three together.
    pub fn sum(&self, last_year: usize) -> u64 {
        self.three(last_year).iter().sum()
    }

    /// The last of the best three years; of equal averages, the latest.
    pub fn best_year(&self) -> usize {
        let sums: Vec<u64> = TenPays::last_years().map(|year| self.sum(year)).collect();
        let highest = sums.iter().max().expect("eight sums");
        let latest = sums.iter().position(|sum| sum == highest);
        1 + latest.expect("the highest of them")
    }

    /// The rounded average of three years.
    pub fn average(&self, last_year: usize) -> Rounded {
        Rounded::of(self.sum(last_year).into(), 3)
    }

    /// The pension of the average of three years, before any reduction.
    pub fn pension(&self, last_year: usize) -> Rounded {
        let pay = self.average(last_year).number;
        Rounded::of_product(pay, self.days, DAYS_TO_A_PAY)
    }
}

#[cfg(test)]
mod tests {
    use super::*;
    use crate::random::Random;
    use crate::samples::ten_pays::ten_pays;

    #[test]
    fn threes_end_in_their_year() {
        let given = TenPays::of(&[10, 9, 8, 7, 6, 5, 4, 3, 2, 1, 0]);
        for year in TenPays::last_years() {
            let last = year as u64;
            assert_eq!(given.three(year), [last + 2, last + 1, last]);
        }
    }

    #[test]
    fn of_equal_averages_the_latest() {
        let equal = |pays: [u64; 10]| TenPays { pays, days: 0 }.best_year();
        assert_eq!(equal([7; 10]), 1);
        assert_eq!(equal([9, 0, 0, 9, 0, 0, 0, 0, 0, 0]), 5);
        assert_eq!(equal([9, 9, 9, 0, 0, 0, 9, 9, 9, 0]), 2);
        assert_eq!(equal([9, 9, 9, 0, 0, 0, 9, 9, 8, 9]), 8);
    }

    /// The best three before rounding have the highest of the eight rounded averages too.
    #[test]
    fn the_best_three_have_the_highest_average() {
        let mut random = Random::new(0x2008);
        for _ in 0..20_000 {
            let given = ten_pays(&mut random);
            let average = |year| given.average(year).number;
            let averages = TenPays::last_years().map(average);
            assert_eq!(Some(average(given.best_year())), averages.max());
        }
    }
}
