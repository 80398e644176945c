//! Dates and completed months.

use super::unless;

/// A date as a frame has it: two bytes of year, one of month, one of day. As numbers they stand in
/// the order of time.
#[derive(Clone, Copy, PartialEq, Eq, PartialOrd, Ord)]
pub struct Date(pub u64);

impl Date {
    fn year(self) -> u64 {
        self.0 >> 16
    }

    fn month(self) -> u64 {
        self.0 >> 8 & 0xFF
    }

    fn day(self) -> u64 {
        self.0 & 0xFF
    }

    /// The last day of the date's month, 0 for a month that there is not.
    fn last_day(self) -> u64 {
        let year = self.year();
        let leap = year % 4 == 0 && year != 1900 && year != 2100;
        match self.month() {
            2 => 28 + u64::from(leap),
            4 | 6 | 9 | 11 => 30,
            1..=12 => 31,
            _ => 0,
        }
    }

    /// Whether the date is one of the calendar, from 1900 to 2100.
    fn stands(self) -> bool {
        (1900..=2100).contains(&self.year()) && (1..=self.last_day()).contains(&self.day())
    }
}

/// Refusal 5 of two dates.
pub fn try_dates(birth: Date, retirement: Date) -> Result<(), u64> {
    unless(birth.stands() && retirement.stands(), 5)?;
    unless(birth <= retirement, 5)
}

/// The completed months between two dates; in a month too short for the birth day the last day
/// completes it.
pub fn completed_months(birth: Date, retirement: Date) -> i64 {
    let months = |date: Date| (12 * date.year() + date.month()) as i64;
    let completing_day = birth.day().min(retirement.last_day());
    let uncompleted = i64::from(retirement.day() < completing_day);
    months(retirement) - months(birth) - uncompleted
}
