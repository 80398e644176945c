//! Dates by counted days, and months early.

use crate::unless;

/// The pension age that stands on record for each section: none, the 1995, the 2008.
pub const SECTION_PENSION_AGES: [u64; 3] = [0, 60, 65];

/// A date as given; it need not be one of the calendar.
#[derive(Clone, Copy, Debug, PartialEq, Eq)]
pub struct Date {
    pub year: u64,
    pub month: u64,
    pub day: u64,
}

/// The days from 1 March of the year 0 to the first of a month. Years are begun in March here, so
/// that a leap day is the last day of its year and the months have one repeating pattern.
fn days_to_first(year: u64, month: u64) -> u64 {
    let (years, months) = if month >= 3 {
        (year, month - 3)
    } else {
        (year - 1, month + 9)
    };
    365 * years + years / 4 - years / 100 + years / 400 + (153 * months + 2) / 5
}

/// The days from the first of a month to the first of the next.
pub fn month_length(year: u64, month: u64) -> u64 {
    let (next_year, next_month) = if month == 12 {
        (year + 1, 1)
    } else {
        (year, month + 1)
    };
    days_to_first(next_year, next_month) - days_to_first(year, month)
}

impl Date {
    /// Whether the date is one of the calendar, from 1900 to 2100.
    pub fn exists(self) -> bool {
        (1900..=2100).contains(&self.year)
            && (1..=12).contains(&self.month)
            && (1..=month_length(self.year, self.month)).contains(&self.day)
    }

    /// Whether this is the last day of its month.
    pub fn ends_month(self) -> bool {
        self.day == month_length(self.year, self.month)
    }

    /// Whether the month of this date is too short for the day of another.
    pub fn lacks_day_of(self, other: Date) -> bool {
        month_length(self.year, self.month) < other.day
    }

    /// The day of a month that completes it for somebody born on this date: that of the same number
    /// or, in a month too short for it, the last.
    pub fn completes(self, year: u64, month: u64) -> Date {
        let day = self.day.min(month_length(year, month));
        Date { year, month, day }
    }

    /// The days from 1 March of the year 0.
    fn day_count(self) -> u64 {
        days_to_first(self.year, self.month) + self.day - 1
    }
}

/// Refusal 5 of two dates and a pension age.
pub fn try_dates(birth: Date, retirement: Date, pension_age: u64) -> Result<(), u64> {
    unless(birth.exists() && retirement.exists(), 5)?;
    unless(birth.day_count() <= retirement.day_count(), 5)?;
    unless((55..=75).contains(&pension_age), 5)
}

/// Whether `months` months after the birth are over at retirement.
fn completed(birth: Date, retirement: Date, months: u64) -> bool {
    let reached = birth.month - 1 + months;
    let over = birth.completes(birth.year + reached / 12, reached % 12 + 1);
    over.day_count() <= retirement.day_count()
}

/// Whether retirement is on the last day of a month too short for the birth day.
pub fn completed_by_last_day(birth: Date, retirement: Date) -> bool {
    retirement.lacks_day_of(birth) && retirement.ends_month()
}

/// The completed months between two dates of the calendar, counted by years, then one by one.
fn age_in_months(birth: Date, retirement: Date) -> i64 {
    let mut months = 0;
    while completed(birth, retirement, months + 12) {
        months += 12;
    }
    while completed(birth, retirement, months + 1) {
        months += 1;
    }
    months as i64
}

/// The months from retirement to the pension age; below nought if it is past.
pub fn months_before(birth: Date, retirement: Date, pension_age: u64) -> i64 {
    12 * pension_age as i64 - age_in_months(birth, retirement)
}

/// Birth and retirement of a dates call.
pub fn dates_of(call: &[u64; 7]) -> (Date, Date) {
    let date = |at: usize| Date {
        year: call[at],
        month: call[at + 1],
        day: call[at + 2],
    };
    (date(0), date(3))
}

/// The dates call on birth, retirement and pension age: refusal and months early.
pub fn months_early(call: &[u64; 7]) -> (u64, i64) {
    let ((birth, retirement), pension_age) = (dates_of(call), call[6]);
    match try_dates(birth, retirement, pension_age) {
        Ok(()) => (0, months_before(birth, retirement, pension_age)),
        Err(refusal) => (refusal, 0),
    }
}

#[cfg(test)]
mod tests {
    use super::*;

    #[test]
    fn months_have_their_lengths() {
        for year in 1900..=2100 {
            let leap = year % 4 == 0 && year != 1900 && year != 2100;
            let february = if leap { 29 } else { 28 };
            let lengths = [31, february, 31, 30, 31, 30, 31, 31, 30, 31, 30, 31];
            for (month, length) in (1..).zip(lengths) {
                assert_eq!(month_length(year, month), length);
            }
        }
    }

    #[test]
    fn months_are_completed_on_birth_days() {
        assert_eq!(months_early(&[1960, 1, 31, 1960, 3, 30, 55]), (0, 659));
        assert_eq!(months_early(&[1960, 1, 31, 1960, 3, 31, 55]), (0, 658));
        assert_eq!(months_early(&[1960, 5, 5, 1960, 5, 5, 75]), (0, 900));
        assert_eq!(months_early(&[1900, 1, 1, 2100, 12, 31, 55]), (0, -1751));
    }

    #[test]
    fn the_last_day_completes_a_short_month() {
        assert_eq!(months_early(&[1960, 1, 31, 1960, 2, 28, 55]), (0, 660));
        assert_eq!(months_early(&[1960, 1, 31, 1960, 2, 29, 55]), (0, 659));
        assert_eq!(months_early(&[1960, 1, 31, 1961, 2, 27, 55]), (0, 648));
        assert_eq!(months_early(&[1960, 1, 31, 1961, 2, 28, 55]), (0, 647));
        assert_eq!(months_early(&[1960, 1, 30, 1960, 4, 29, 55]), (0, 658));
        assert_eq!(months_early(&[1960, 1, 30, 1960, 4, 30, 55]), (0, 657));
    }
}
