//! The steps on amounts: years, final pay, reduction, debit, charge and abatement.

use crate::wide::Rounded;
use crate::{unless, LARGEST_PAY};

/// Service days that give a whole pay as 1995 pension: 80 years of 365 days.
const DAYS_TO_A_PAY: u64 = 29_200;

/// The largest amount of the abatement call, in pence.
const LARGEST_AMOUNT: u64 = 1_000_000_000_000;

/// A pension revalued by ten-thousandths.
pub fn revalued(pension: u64, revaluation: u64) -> Rounded {
    Rounded::of_product(pension, 10_000 + revaluation, 10_000)
}

/// What a year's aggregate adds to the 2015 pension.
pub fn accrued(aggregate: u64) -> Rounded {
    Rounded::of(aggregate.into(), 54)
}

/// The 2015 pension after one more year.
pub fn after_year(pension: u64, revaluation: u64, aggregate: u64) -> u64 {
    revalued(pension, revaluation).number + accrued(aggregate).number
}

/// An amount reduced by a factor in thousandths.
pub fn reduced(amount: u64, factor: u64) -> Rounded {
    Rounded::of_product(amount, factor, 1_000)
}

/// The pension debit of a pot by a factor in hundredths.
pub fn pension_debit(pot: u64, factor: u64) -> Rounded {
    Rounded::of_product(pot, 100, factor)
}

/// Pays, allowances, controls, service days and factor of the 1995 Section.
#[derive(Clone, Copy, Debug, PartialEq, Eq)]
pub struct FinalPay {
    /// Years 4, 3, 2, 1.
    pub pays: [u64; 4],
    /// Thousandths for years 3, 2, 1.
    pub allowances: [u64; 3],
    /// Bits 0, 1, 2 for years 3, 2, 1.
    pub controls: u64,
    pub days: u64,
    /// Hundredths.
    pub factor: u64,
}

impl FinalPay {
    /// The ten numbers of an 04, in their order there.
    pub fn of(numbers: &[u64; 10]) -> FinalPay {
        let [pay4, pay3, pay2, pay1, allowance3, allowance2, allowance1, controls, days, factor] =
            *numbers;
        FinalPay {
            pays: [pay4, pay3, pay2, pay1],
            allowances: [allowance3, allowance2, allowance1],
            controls,
            days,
            factor,
        }
    }

    /// Refusal 9.
    pub fn tried(&self) -> Result<(), u64> {
        unless(self.pays.iter().all(|&pay| pay <= LARGEST_PAY), 9)?;
        unless(self.allowances.iter().all(|&part| part <= 1_000), 9)?;
        unless(self.controls <= 7, 9)?;
        unless(self.days <= 16_425, 9)?;
        unless((1..=10_000).contains(&self.factor), 9)
    }

    /// The pay of year 4, 3, 2 or 1.
    pub fn pay(&self, year: usize) -> u64 {
        self.pays[4 - year]
    }

    /// Whether the rise to year 3, 2 or 1 is controlled.
    pub fn controlled(&self, year: usize) -> bool {
        let bit = [4, 2, 1][year - 1];
        self.controls / bit % 2 == 1
    }

    /// The year of final pay.
    pub fn final_year(&self) -> usize {
        let highest = self.pays[1..].iter().max().expect("three pays");
        (1..=3)
            .find(|&year| self.pay(year) == *highest)
            .expect("a year with the highest pay")
    }

    /// The pension of a year's pay, before any reduction.
    pub fn pension(&self, year: usize) -> Rounded {
        self.by_days(self.pay(year))
    }

    /// The pension of an amount for the service days.
    pub fn by_days(&self, amount: u64) -> Rounded {
        Rounded::of_product(amount, self.days, DAYS_TO_A_PAY)
    }

    /// An amount with the allowance of year 3, 2 or 1.
    pub fn raised(&self, year: usize, amount: u64) -> Rounded {
        Rounded::of_product(amount, 1_000 + self.allowances[3 - year], 1_000)
    }

    /// The rise to year 3, 2 or 1; none is worked where the year is not controlled.
    pub fn rise(&self, year: usize) -> Option<Rounded> {
        if !self.controlled(year) {
            return None;
        }
        let base = match year {
            3 => self.pay(4),
            _ => self.pay(year + 1).min(self.allowed(year + 1)),
        };
        Some(self.raised(year, base))
    }

    /// The allowed pay of year 3, 2 or 1.
    pub fn allowed(&self, year: usize) -> u64 {
        self.rise(year).map_or(self.pay(year), |rise| rise.number)
    }

    /// What the pay of a year has above its allowed pay.
    pub fn excess(&self, year: usize) -> u64 {
        self.pay(year).saturating_sub(self.allowed(year))
    }

    /// The employer's charge.
    pub fn charge(&self) -> u64 {
        self.charge_for(self.final_year())
    }

    /// The charge if the pay of a year were the final pay.
    pub fn charge_for(&self, year: usize) -> u64 {
        self.charge_from(self.excess(year))
    }

    /// An excess pension by the factor, without its lump sum.
    pub fn by_factor(&self, pension: u64) -> Rounded {
        Rounded::of_product(pension, self.factor, 100)
    }

    /// The charge that an excess becomes.
    pub fn charge_from(&self, excess: u64) -> u64 {
        let pension = self.by_days(excess).number;
        self.by_factor(pension).number + 3 * pension
    }
}

/// The charge call on the numbers of an 04: refusal and charge.
pub fn charge(call: &[u64; 10]) -> (u64, u64) {
    let final_pay = FinalPay::of(call);
    match final_pay.tried() {
        Ok(()) => (0, final_pay.charge()),
        Err(refusal) => (refusal, 0),
    }
}

/// The abatement call on pension, earned pension, previous pay and new pay: refusal and reduction.
pub fn abatement(call: &[u64; 4]) -> (u64, u64) {
    let [pension, earned, previous_pay, new_pay] = *call;
    if call.iter().any(|&amount| amount > LARGEST_AMOUNT) {
        return (24, 0);
    }
    if earned > pension {
        return (25, 0);
    }
    let enhancement = pension as i64 - earned as i64;
    let over = new_pay as i64 + enhancement - previous_pay as i64;
    (0, over.clamp(0, enhancement) as u64)
}
