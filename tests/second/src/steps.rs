//! Every step of a case, for its worksheet: each number on the way and the way that it was rounded.
//!
//! The structs are laid out as the engine gives them, all in words of 64 bits, so that the two are
//! compared word by word.

use crate::benefits::{reduced, FinalPay};
use crate::cases::{read, Case, MOST_YEARS};
use crate::roundings::WorkedYear;
use crate::wide::{Rounded, Way};

/// A number with the way that it was rounded: 0 exact or not rounded, 1 down, 2 up.
#[repr(C)]
#[derive(Clone, Copy, Debug, Default, PartialEq, Eq)]
pub struct Number {
    pub number: u64,
    pub way: u64,
}

/// The way of a number that went up.
pub const UP: u64 = 2;

impl From<Rounded> for Number {
    fn from(given: Rounded) -> Number {
        let way = match given.way {
            Way::Exact => 0,
            Way::Down => 1,
            Way::Up => UP,
        };
        Number {
            number: given.number,
            way,
        }
    }
}

impl Number {
    /// One that no step rounds.
    fn whole(number: u64) -> Number {
        Rounded::whole(number).into()
    }
}

/// What a year adds to the 2015 pension.
#[repr(C)]
#[derive(Clone, Copy, Debug, Default, PartialEq, Eq)]
pub struct YearSteps {
    pub aggregate: Number,
    /// The pension of the years before it, with its revaluation.
    pub revalued: Number,
    /// A 54th of the aggregate.
    pub accrued: Number,
    /// The pension after it.
    pub pension: u64,
}

/// A pension or lump sum from what was earned to the net.
#[repr(C)]
#[derive(Clone, Copy, Debug, Default, PartialEq, Eq)]
pub struct BenefitSteps {
    pub earned: Number,
    /// In thousandths; 0 where nothing is reduced.
    pub factor: u64,
    pub reduced: Number,
    pub debit: Number,
    pub net: u64,
}

/// The employer's charge.
#[repr(C)]
#[derive(Clone, Copy, Debug, Default, PartialEq, Eq)]
pub struct ChargeSteps {
    /// The allowed pays of years 3, 2, 1.
    pub allowed: [Number; 3],
    pub excess: u64,
    /// The excess pension.
    pub pension: Number,
    /// The excess pension times the factor.
    pub product: Number,
    /// Three times the excess pension.
    pub lump_sum: u64,
    pub charge: u64,
}

/// Every step of a case; but for a refusal and its line noughts where it is refused.
#[repr(C)]
#[derive(Clone, Copy, Debug, PartialEq, Eq)]
pub struct Steps {
    pub refusal: u64,
    pub line: u64,
    pub months_2015: i64,
    /// 0 without a section.
    pub months_1995: i64,
    pub pension_2015: BenefitSteps,
    /// The section's pay: final pay, or the average of three years.
    pub pay: Number,
    /// Its year, the last of the three.
    pub pay_year: u64,
    pub pension_1995: BenefitSteps,
    pub lump_sum: BenefitSteps,
    pub charge: ChargeSteps,
    pub rounded_up: u64,
    pub years: u64,
    /// Noughts behind the last.
    pub year: [YearSteps; MOST_YEARS],
}

const _: () = assert!(std::mem::size_of::<Steps>() == 3_168);

impl Steps {
    /// Those of a refusal at a line.
    pub fn refused(refusal: u64, line: u64) -> Steps {
        Steps {
            refusal,
            line,
            months_2015: 0,
            months_1995: 0,
            pension_2015: BenefitSteps::default(),
            pay: Number::default(),
            pay_year: 0,
            pension_1995: BenefitSteps::default(),
            lump_sum: BenefitSteps::default(),
            charge: ChargeSteps::default(),
            rounded_up: 0,
            years: 0,
            year: [YearSteps::default(); MOST_YEARS],
        }
    }

    /// Every number that a step may round.
    pub fn numbers(&self) -> Vec<Number> {
        let benefits = [&self.pension_2015, &self.pension_1995, &self.lump_sum];
        let of_benefit = |steps: &BenefitSteps| [steps.earned, steps.reduced, steps.debit];
        let of_year = |steps: &YearSteps| [steps.aggregate, steps.revalued, steps.accrued];
        let mut list = vec![self.pay, self.charge.pension, self.charge.product];
        list.extend(self.charge.allowed);
        list.extend(benefits.into_iter().flat_map(of_benefit));
        list.extend(self.year.iter().flat_map(of_year));
        list
    }
}

/// A benefit that was earned, with its factor if it is reduced and its debit.
fn benefit(earned: Number, factor: Option<u64>, debit: Number) -> BenefitSteps {
    let left = match factor {
        Some(factor) => reduced(earned.number, factor).into(),
        None => Number::whole(earned.number),
    };
    BenefitSteps {
        earned,
        factor: factor.unwrap_or(0),
        reduced: left,
        debit,
        net: left.number - debit.number,
    }
}

/// Three times a pension or a debit.
fn threefold(number: Number) -> Number {
    Number::whole(3 * number.number)
}

impl FinalPay {
    /// The steps of the charge for the pay of a year.
    fn charge_steps(&self, year: usize) -> ChargeSteps {
        let allowed = |year| match self.rise(year) {
            Some(rise) => rise.into(),
            None => Number::whole(self.pay(year)),
        };
        let pension = self.by_days(self.excess(year));
        let product = self.by_factor(pension.number);
        ChargeSteps {
            allowed: [3, 2, 1].map(allowed),
            excess: self.excess(year),
            pension: pension.into(),
            product: product.into(),
            lump_sum: 3 * pension.number,
            charge: self.charge_for(year),
        }
    }
}

impl WorkedYear {
    fn steps(self) -> YearSteps {
        YearSteps {
            aggregate: self.aggregate.into(),
            revalued: self.revalued.into(),
            accrued: self.accrued.into(),
            pension: self.pension,
        }
    }
}

impl Case {
    /// Every step of an accepted case, or the refusal of its closing.
    pub fn steps(&self) -> Result<Steps, u64> {
        self.steps_with(&self.aggregates(), self.final_year())
    }

    /// The same of one aggregate for each year and of a final year of the section.
    pub fn steps_with(&self, aggregates: &[Rounded], final_year: usize) -> Result<Steps, u64> {
        let closed = self.close_with(aggregates, final_year)?;
        let mut steps = Steps {
            months_2015: self.months_early(0).unwrap_or(0),
            months_1995: self.months_early(1).unwrap_or(0),
            rounded_up: closed.rounded_up,
            years: self.years.len() as u64,
            ..Steps::refused(0, 0)
        };
        let worked = self.worked_years(aggregates).into_iter();
        for (place, year) in steps.year.iter_mut().zip(worked) {
            *place = year.steps();
        }
        let earned = Number::whole(self.pension_2015(aggregates));
        let factor = self.factor(0)?.map(|factor| factor.pension);
        steps.pension_2015 = benefit(earned, factor, self.debit_of(0).into());
        self.add_section(&mut steps, final_year)?;
        Ok(steps)
    }

    /// Those of the section, if there is one.
    fn add_section(&self, steps: &mut Steps, final_year: usize) -> Result<(), u64> {
        let (pay, pension): (Number, Number) = match (self.final_pay, self.ten_pays) {
            (Some(pay), _) => {
                steps.charge = pay.charge_steps(final_year);
                let final_pay = Number::whole(pay.pay(final_year));
                (final_pay, pay.pension(final_year).into())
            }
            (_, Some(pays)) => {
                let average = pays.average(final_year);
                (average.into(), pays.pension(final_year).into())
            }
            _ => return Ok(()),
        };
        let factor = self.factor(1)?;
        steps.pay = pay;
        steps.pay_year = final_year as u64;
        let of_pension = factor.map(|factor| factor.pension);
        steps.pension_1995 = benefit(pension, of_pension, self.debit_of(1).into());
        if self.has_lump_sum() {
            let of_lump_sum = factor.map(|factor| factor.lump_sum);
            let (earned, debit) = (threefold(pension), threefold(self.debit_of(1).into()));
            steps.lump_sum = benefit(earned, of_lump_sum, debit);
        }
        Ok(())
    }
}

/// The steps call: every step of what a text gives.
pub fn steps(text: &[u8]) -> Steps {
    let worked = read(text).and_then(|case| case.steps().map_err(|refusal| (refusal, 0)));
    worked.unwrap_or_else(|(refusal, line)| Steps::refused(refusal, line))
}
