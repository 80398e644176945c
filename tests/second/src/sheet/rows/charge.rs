//! The rows of the employer's charge.

use super::{amount, rounded, Row, CHARGE};
use crate::benefits::FinalPay;
use crate::sheet::figures::{decimal, money, with_commas};
use crate::sheet::Worked;

impl Worked<'_> {
    /// The rows of the employer's charge; none but in the 1995 Section.
    pub fn charge_rows(&self) -> Vec<Row> {
        let Some(given) = self.case.final_pay else {
            return Vec::new();
        };
        let charge = &self.steps.charge;
        let years = [3, 2, 1];
        let mut rows: Vec<Row> = years
            .into_iter()
            .map(|year| self.allowed_row(&given, year))
            .collect();
        let (excess, pension) = (money(charge.excess), money(charge.pension.number));
        let by_days = format!("{excess} × {}/29,200", with_commas(given.days));
        let by_factor = format!("{pension} × {}", decimal(given.factor, 2));
        let (product, lump_sum) = (charge.product, charge.lump_sum);
        let sum = format!("{} + {}", money(product.number), money(lump_sum));
        let once = "employer's charge, once";
        rows.extend([
            amount(CHARGE, "excess", charge.excess, self.excess_words()),
            rounded(CHARGE, "excess pension", charge.pension, by_days),
            rounded(CHARGE, "excess pension × factor", product, by_factor),
            amount(
                CHARGE,
                "3 × excess pension",
                lump_sum,
                format!("3 × {pension}"),
            ),
            amount(CHARGE, once, charge.charge, sum),
        ]);
        rows
    }

    /// The allowed pay of year 3, 2 or 1.
    fn allowed_row(&self, given: &FinalPay, year: usize) -> Row {
        let what = format!("allowed pay of year {year}");
        let number = self.steps.charge.allowed[3 - year];
        if !given.controlled(year) {
            let how = "not controlled: its own pay";
            return amount(CHARGE, &what, number.number, how);
        }
        let rise = decimal(1_000 + given.allowances[3 - year], 3);
        let before = money(given.pay(year + 1));
        let how = match year {
            3 => format!("{before} × {rise}"),
            _ => {
                let allowed = money(given.allowed(year + 1));
                format!("the lower of {before} and {allowed}, × {rise}")
            }
        };
        rounded(CHARGE, &what, number, how)
    }

    /// How the excess comes about.
    fn excess_words(&self) -> String {
        let (pay, year) = (self.steps.pay.number, self.steps.pay_year);
        let allowed = self.steps.charge.allowed[3 - year as usize].number;
        let (of, under) = (money(pay), money(allowed));
        if pay > allowed {
            format!("{of} − {under}, allowed in year {year}")
        } else {
            format!("{of} is not above {under}, allowed in year {year}")
        }
    }
}
