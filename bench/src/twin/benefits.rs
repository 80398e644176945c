//! The steps on amounts.

use super::{rounded, unless, Rounded, LARGEST_PAY, MOST_DAYS};
use second::benefits::FinalPay;

/// Service days that give a whole pay as 1995 pension, and as 2008 pension.
const DAYS_TO_A_PAY: u64 = 29_200;
const DAYS_TO_A_PAY_2008: u64 = 21_900;

/// An amount of several steps, and how many of their roundings went up.
#[derive(Clone, Copy, Default)]
pub struct Counted {
    pub amount: u64,
    pub ups: u64,
}

/// The 2015 pension after one more year.
#[inline(always)]
pub fn after_year(pension: Counted, revaluation: u64, aggregate: Rounded) -> Counted {
    let revalued = rounded(pension.amount * (10_000 + revaluation), 10_000);
    let accrued = rounded(aggregate.number, 54);
    Counted {
        amount: revalued.number + accrued.number,
        ups: pension.ups + aggregate.ups() + revalued.ups() + accrued.ups(),
    }
}

/// An amount reduced by a factor in thousandths.
pub fn reduced(amount: u64, factor: u64) -> Rounded {
    rounded(amount * factor, 1_000)
}

/// The pension debit of a pot by a factor in hundredths.
pub fn pension_debit(pot: u64, factor: u64) -> Rounded {
    rounded(pot * 100, factor)
}

/// The place of final pay among the pays; of equals the later year.
fn final_year(pays: &[u64; 4]) -> usize {
    let mut place = 3;
    for earlier in [2, 1] {
        if pays[earlier] > pays[place] {
            place = earlier;
        }
    }
    place
}

/// The allowed pay of a year by its place among the pays. All three years count, whichever it is.
fn allowed(final_pay: &FinalPay, year: usize) -> Counted {
    let mut base = final_pay.pays[0];
    let mut of_year = Counted::default();
    for place in 1..=3 {
        let pay = final_pay.pays[place];
        let controlled = final_pay.controls >> (place - 1) & 1 == 1;
        let allowed = if controlled {
            rounded(base * (1_000 + final_pay.allowances[place - 1]), 1_000)
        } else {
            Rounded::exact(pay)
        };
        if place == year {
            of_year.amount = allowed.number;
        }
        of_year.ups += allowed.ups();
        base = allowed.number.min(pay);
    }
    of_year
}

/// A section's pension before reduction, the employer's charge, and how many roundings of both went
/// up.
#[derive(Clone, Copy, Default)]
pub struct SectionPay {
    pub pension: u64,
    pub charge: u64,
    pub ups: u64,
}

/// Ten pays, oldest first, and service days of the 2008 Section.
pub struct TenPays {
    pub pays: [u64; 10],
    pub days: u64,
}

impl TenPays {
    /// Refusal 27.
    pub fn tried(&self) -> Result<(), u64> {
        unless(self.pays.iter().all(|&pay| pay <= LARGEST_PAY), 27)?;
        unless(self.days <= MOST_DAYS, 27)
    }

    /// The pension by the rounded average of the best three consecutive years, the best before
    /// rounding. Which of equal threes is taken shows in no number.
    pub fn section_pay(&self) -> SectionPay {
        let sums = self.pays.windows(3).map(|years| years.iter().sum());
        let average = rounded(sums.max().unwrap_or_default(), 3);
        let pension = rounded(average.number * self.days, DAYS_TO_A_PAY_2008);
        SectionPay {
            pension: pension.number,
            charge: 0,
            ups: average.ups() + pension.ups(),
        }
    }
}

/// The 1995 pension and the charge.
pub fn section_pay_1995(final_pay: &FinalPay) -> SectionPay {
    let by_days = |pay: u64| rounded(pay * final_pay.days, DAYS_TO_A_PAY);
    let year = final_year(&final_pay.pays);
    let pay = final_pay.pays[year];
    let allowed = allowed(final_pay, year);
    let pension = by_days(pay);
    let excess = by_days(pay.saturating_sub(allowed.amount));
    let product = rounded(excess.number * final_pay.factor, 100);
    SectionPay {
        pension: pension.number,
        charge: product.number + 3 * excess.number,
        ups: pension.ups() + allowed.ups + excess.ups() + product.ups(),
    }
}
