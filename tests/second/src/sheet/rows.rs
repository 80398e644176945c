//! The worked rows of a sheet: which step each is, its figure, the way it was rounded and how it comes
//! about.

mod charge;
mod retirement;
mod section;
mod years;

use super::figures::Figure;
use super::Worked;
use crate::steps::Number;

/// The step of the months early, whose rows keep their words in the blank.
pub const MONTHS_EARLY: &str = "1 months early";

const POSTS: &str = "2 posts";
const YEARS: &str = "3 years";
const FINAL_PAY: &str = "4 final pay";
const TEN_PAYS: &str = "4 ten pays";
const REDUCTION: &str = "5 reduction";
const DEBIT: &str = "6 debit";
const CHARGE: &str = "7 charge";

/// That of a row of all steps.
const ALL_STEPS: &str = "1 to 7";

/// A row of a table of steps.
pub struct Row {
    pub step: &'static str,
    pub what: String,
    pub figure: Figure,
    pub way: Option<u64>,
    /// In one line, or a weighted week in more.
    pub how: Vec<String>,
}

/// A row of a figure that no step rounds.
fn plain(step: &'static str, what: &str, figure: Figure, how: impl Into<String>) -> Row {
    Row {
        step,
        what: what.to_string(),
        figure,
        way: None,
        how: vec![how.into()],
    }
}

/// A row of an amount that no step rounds.
fn amount(step: &'static str, what: &str, pence: u64, how: impl Into<String>) -> Row {
    plain(step, what, Figure::money(pence), how)
}

/// A row of an amount that a step rounds.
fn rounded(step: &'static str, what: &str, number: Number, how: impl Into<String>) -> Row {
    Row {
        way: Some(number.way),
        ..amount(step, what, number.number, how)
    }
}

impl Row {
    /// The number of its step; none where it is of all of them.
    pub fn step_number(&self) -> Option<&'static str> {
        (self.step != ALL_STEPS).then_some(&self.step[..1])
    }
}

impl Worked<'_> {
    /// The section by its year.
    pub fn section(&self) -> Option<&'static str> {
        match self.case.section() {
            1 => Some("1995"),
            2 => Some("2008"),
            _ => None,
        }
    }

    /// The name of a scheme.
    pub fn scheme(&self, scheme: u64) -> &'static str {
        match scheme {
            0 => "2015",
            _ => self.section().expect("a section of the scheme"),
        }
    }

    pub fn rounding_rows(&self) -> Vec<Row> {
        let count = Figure::Count(self.steps.rounded_up);
        let how = "the lines that say \"rounded up\"";
        vec![plain(ALL_STEPS, "amounts rounded up", count, how)]
    }
}
