//! The worksheet of a case, from the second program's own working: the sheet, its blank and its table
//! for a spreadsheet.

mod csv;
pub mod figures;
mod pages;
mod posts;
mod rows;
mod tables;

use crate::cases::Case;
use crate::words::Named;
use crate::Steps;

/// A worked case with its names and all its steps.
struct Worked<'named> {
    case: &'named Case,
    names: &'named [Vec<String>],
    steps: Steps,
}

impl Worked<'_> {
    fn of(named: &Named) -> Worked<'_> {
        Worked {
            case: &named.case,
            names: &named.names,
            steps: named.case.steps().expect("a worked case"),
        }
    }
}

/// The sheet of a case that is not refused.
pub fn sheet(named: &Named) -> String {
    pages::printed(&Worked::of(named), false)
}

/// The same with what an officer fills in left out.
pub fn blank(named: &Named) -> String {
    pages::printed(&Worked::of(named), true)
}

/// The same for a spreadsheet.
pub fn csv(named: &Named) -> String {
    csv::printed(&Worked::of(named))
}
