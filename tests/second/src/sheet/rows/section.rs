//! The rows of a section's pension: of final pay or of ten pays.

use super::{amount, plain, rounded, Row, FINAL_PAY, TEN_PAYS};
use crate::benefits::FinalPay;
use crate::sheet::figures::{money, with_commas, Figure};
use crate::sheet::Worked;
use crate::ten_pays::TenPays;

/// The three years of the best average by their numbers.
fn three_years(last: u64) -> String {
    format!("years {}, {} and {last}", last + 2, last + 1)
}

impl Worked<'_> {
    /// The rows of the section's pension; none without a section.
    pub fn section_rows(&self) -> Vec<Row> {
        let final_pay = self.case.final_pay.map(|pays| self.final_pay_rows(&pays));
        let ten_pays = self.case.ten_pays.map(|pays| self.ten_pays_rows(&pays));
        final_pay.or(ten_pays).unwrap_or_default()
    }

    fn final_pay_rows(&self, given: &FinalPay) -> Vec<Row> {
        let (pay, pension) = (self.steps.pay.number, self.steps.pension_1995.earned);
        let days = with_commas(given.days);
        let year = Figure::PayYear(self.steps.pay_year);
        let by_days = format!("{} × {days}/29,200", money(pay));
        let threefold = format!("3 × {}", money(pension.number));
        let lump_sum = self.steps.lump_sum.earned.number;
        let highest = "the highest pay of years 3, 2 and 1";
        let later = "of equal pays the later year";
        vec![
            amount(FINAL_PAY, "final pay", pay, highest),
            plain(FINAL_PAY, "year of final pay", year, later),
            rounded(FINAL_PAY, "1995 pension", pension, by_days),
            amount(FINAL_PAY, "lump sum", lump_sum, threefold),
        ]
    }

    fn ten_pays_rows(&self, given: &TenPays) -> Vec<Row> {
        let (pay, last) = (self.steps.pay, self.steps.pay_year);
        let three = given.three(last as usize);
        let three: Vec<String> = three.iter().map(|&pay| money(pay)).collect();
        let average = format!("({})/3", three.join(" + "));
        let latest = format!("{}: of equal averages the latest", three_years(last));
        let days = with_commas(given.days);
        let by_days = format!("{} × {days}/21,900", money(pay.number));
        let year = Figure::PayYear(last);
        let pension = self.steps.pension_1995.earned;
        vec![
            rounded(TEN_PAYS, "average of three years", pay, average),
            plain(TEN_PAYS, "last of the three years", year, latest),
            rounded(TEN_PAYS, "2008 pension", pension, by_days),
        ]
    }
}
