//! The figures of a sheet, each spelled for people and for a spreadsheet.

use crate::calendar::Date;
use crate::fractions::Mixed;

/// A number of a sheet, or a word in its place.
#[derive(Clone, Debug)]
pub enum Figure {
    /// In pence.
    Money(Mixed),
    /// In pence a year, for an hour a week.
    Rate(Mixed),
    /// In minutes.
    Time(Mixed),
    /// A part of whole time.
    Proportion(Mixed),
    /// A number with so many decimals.
    PerCent(u64, usize),
    Factor(u64, usize),
    Months(i64),
    Days(u64),
    /// A pension age.
    Age(u64),
    /// The year of a pay, 1 being the last.
    PayYear(u64),
    /// Amounts counted.
    Count(u64),
    Date(Date),
    Word(&'static str),
}

/// Digits with a comma before every three of them.
pub fn with_commas(number: u64) -> String {
    let digits = number.to_string();
    let places = (1..=digits.len()).rev();
    let mut written = String::new();
    for (digit, place) in digits.chars().zip(places) {
        written.push(digit);
        if place > 1 && place % 3 == 1 {
            written.push(',');
        }
    }
    written
}

/// A whole number of hundredths, thousandths and so on, with all its decimals.
pub fn decimal(number: u64, decimals: usize) -> String {
    let mut digits = format!("{number:0>width$}", width = decimals + 1);
    digits.insert(digits.len() - decimals, '.');
    digits
}

pub fn date(date: Date) -> String {
    format!("{:04}-{:02}-{:02}", date.year, date.month, date.day)
}

/// Pounds and pence.
pub fn money(pence: u64) -> String {
    format!("£{}.{:02}", with_commas(pence / 100), pence % 100)
}

/// Hours and minutes.
pub fn time(minutes: u64) -> String {
    format!("{}h{:02}", minutes / 60, minutes % 60)
}

/// A whole number as written and the fraction beside it, if there is one.
fn mixed(whole: String, number: &Mixed) -> String {
    match number.fraction() {
        Some((above, below)) => format!("{whole} {above}/{below}"),
        None => whole,
    }
}

/// The word for the way that a number was rounded.
pub fn way_word(way: u64) -> &'static str {
    ["exact", "rounded down", "rounded up"][way as usize]
}

impl Figure {
    /// Whole pence.
    pub fn money(pence: u64) -> Figure {
        Figure::Money(Mixed::whole(pence))
    }

    /// Whole minutes.
    pub fn time(minutes: u64) -> Figure {
        Figure::Time(Mixed::whole(minutes))
    }

    /// As on the sheet.
    pub fn spelled(&self) -> String {
        match self {
            Figure::Money(pence) | Figure::Rate(pence) => mixed(money(pence.whole), pence),
            Figure::Time(minutes) => mixed(time(minutes.whole), minutes),
            Figure::Proportion(part) => match part.fraction() {
                Some((above, below)) => format!("{above}/{below}"),
                None => part.whole.to_string(),
            },
            Figure::PerCent(number, decimals) => format!("{}%", decimal(*number, *decimals)),
            Figure::Factor(number, decimals) => decimal(*number, *decimals),
            Figure::Months(months) => months.to_string(),
            Figure::Days(days) => with_commas(*days),
            Figure::Age(number) | Figure::PayYear(number) | Figure::Count(number) => {
                number.to_string()
            }
            Figure::Date(day) => date(*day),
            Figure::Word(word) => (*word).to_string(),
        }
    }

    /// For a spreadsheet: bare digits, or a text in quotes; nothing for a proportion.
    pub fn value(&self) -> String {
        match self {
            Figure::Money(pence) | Figure::Rate(pence) => decimal(pence.whole, 2),
            Figure::Time(minutes) => minutes.whole.to_string(),
            Figure::Proportion(_) => String::new(),
            Figure::PerCent(number, decimals) => decimal(*number, *decimals),
            Figure::Days(days) => days.to_string(),
            Figure::Date(_) | Figure::Word(_) => format!("\"{}\"", self.spelled()),
            _ => self.spelled(),
        }
    }

    /// The fraction beside the value for a spreadsheet; a proportion is nothing else.
    pub fn fraction(&self) -> Option<(u64, u64)> {
        match self {
            Figure::Money(number) | Figure::Rate(number) | Figure::Time(number) => {
                number.fraction()
            }
            Figure::Proportion(part) => Some(part.fraction().unwrap_or((part.whole, 1))),
            _ => None,
        }
    }

    pub fn unit(&self) -> Option<&'static str> {
        Some(match self {
            Figure::Money(_) => "pounds",
            Figure::Rate(_) => "pounds for an hour a week",
            Figure::Time(_) => "minutes",
            Figure::Proportion(_) => "of whole time",
            Figure::PerCent(..) => "per cent",
            Figure::Factor(..) => "factor",
            Figure::Months(_) => "months",
            Figure::Days(_) => "days",
            Figure::Age(_) => "years",
            Figure::PayYear(_) => "year",
            Figure::Count(_) => "amounts",
            Figure::Date(_) => "date",
            Figure::Word(_) => return None,
        })
    }
}

#[cfg(test)]
mod tests {
    use super::*;

    #[test]
    fn figures_are_spelled() {
        let spelled = |figure: Figure| figure.spelled();
        assert_eq!(spelled(Figure::money(0)), "£0.00");
        assert_eq!(spelled(Figure::money(99_999)), "£999.99");
        assert_eq!(spelled(Figure::money(100_000)), "£1,000.00");
        assert_eq!(spelled(Figure::money(123_456_789_012)), "£1,234,567,890.12");
        assert_eq!(
            spelled(Figure::Rate(Mixed::of(304_000, 3))),
            "£1,013.33 1/3"
        );
        assert_eq!(spelled(Figure::time(161_280)), "2688h00");
        assert_eq!(
            spelled(Figure::Time(Mixed::of(2_260_800, 2_580))),
            "14h36 12/43"
        );
        assert_eq!(spelled(Figure::Proportion(Mixed::of(9, 9))), "1");
        assert_eq!(spelled(Figure::Proportion(Mixed::of(1_800, 2_250))), "4/5");
        assert_eq!(spelled(Figure::PerCent(5, 2)), "0.05%");
        assert_eq!(spelled(Figure::PerCent(1_000, 1)), "100.0%");
        assert_eq!(spelled(Figure::Factor(1_000, 3)), "1.000");
        assert_eq!(spelled(Figure::Months(-84)), "-84");
        assert_eq!(spelled(Figure::Days(16_425)), "16,425");
    }

    #[test]
    fn values_are_bare() {
        assert_eq!(Figure::money(2_400_000).value(), "24000.00");
        assert_eq!(Figure::Days(16_425).value(), "16425");
        assert_eq!(Figure::PerCent(65, 1).value(), "6.5");
        assert_eq!(Figure::Word("none").value(), "\"none\"");
        let whole = Figure::Proportion(Mixed::of(9, 9));
        assert_eq!(
            (whole.value(), whole.fraction()),
            (String::new(), Some((1, 1)))
        );
    }
}
