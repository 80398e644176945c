//! The roundings of a case: every step of the papers that rounds, each with the way it went. They are
//! listed apart from the amounts, after them.

use crate::benefits::{accrued, pension_debit, reduced, revalued, FinalPay};
use crate::cases::{Case, MOST_YEARS};
use crate::ten_pays::TenPays;
use crate::wide::{Rounded, Way};

/// A step that rounds.
#[derive(Clone, Copy, Debug, PartialEq, Eq)]
pub enum Step {
    Aggregate,
    Revaluation,
    Accrual,
    Pension1995,
    Average2008,
    Pension2008,
    Reduction2015,
    Reduction1995,
    ReductionOfLumpSum,
    Reduction2008,
    Debit2015,
    Debit1995,
    Debit2008,
    Allowed3,
    Allowed2,
    Allowed1,
    ExcessPension,
    ChargeByFactor,
}

impl Step {
    pub const ALL: [Step; 18] = [
        Step::Aggregate,
        Step::Revaluation,
        Step::Accrual,
        Step::Pension1995,
        Step::Average2008,
        Step::Pension2008,
        Step::Reduction2015,
        Step::Reduction1995,
        Step::ReductionOfLumpSum,
        Step::Reduction2008,
        Step::Debit2015,
        Step::Debit1995,
        Step::Debit2008,
        Step::Allowed3,
        Step::Allowed2,
        Step::Allowed1,
        Step::ExcessPension,
        Step::ChargeByFactor,
    ];

    pub fn words(self) -> &'static str {
        match self {
            Step::Aggregate => "an aggregate",
            Step::Revaluation => "a revaluation",
            Step::Accrual => "a 54th",
            Step::Pension1995 => "the 1995 pension",
            Step::Average2008 => "the 2008 average",
            Step::Pension2008 => "the 2008 pension",
            Step::Reduction2015 => "the reduced 2015 pension",
            Step::Reduction1995 => "the reduced 1995 pension",
            Step::ReductionOfLumpSum => "the reduced lump sum",
            Step::Reduction2008 => "the reduced 2008 pension",
            Step::Debit2015 => "the 2015 debit",
            Step::Debit1995 => "the 1995 debit",
            Step::Debit2008 => "the 2008 debit",
            Step::Allowed3 => "allowed year 3",
            Step::Allowed2 => "allowed year 2",
            Step::Allowed1 => "allowed year 1",
            Step::ExcessPension => "the excess pension",
            Step::ChargeByFactor => "the charge by its factor",
        }
    }
}

/// A step and the way it went.
pub type Rounding = (Step, Way);

/// A step with what it gave.
fn went(step: Step, given: Rounded) -> Rounding {
    (step, given.way)
}

/// How many of the roundings went up.
pub fn rounded_up(list: &[Rounding]) -> u64 {
    let upward = list.iter().filter(|(_, way)| *way == Way::Up);
    upward.count() as u64
}

/// The most roundings of a case in a section or without: three in each year, the section's own, its
/// reductions and the 2015 one, a debit of each scheme, and in the 1995 Section five of the charge.
pub fn most_roundings(section: u64) -> usize {
    let others = match section {
        0 => 1 + 1,
        1 => 1 + 3 + 2 + 5,
        _ => 2 + 2 + 2,
    };
    3 * MOST_YEARS + others
}

impl FinalPay {
    /// The rises to all three years, of those that are controlled.
    fn rises(&self) -> impl Iterator<Item = Rounding> + '_ {
        let years = [
            (3, Step::Allowed3),
            (2, Step::Allowed2),
            (1, Step::Allowed1),
        ];
        years
            .into_iter()
            .filter_map(|(year, step)| Some(went(step, self.rise(year)?)))
    }

    /// The roundings of the charge for the pay of a year.
    fn charge_roundings(&self, year: usize) -> Vec<Rounding> {
        let pension = self.by_days(self.excess(year));
        let mut list: Vec<Rounding> = self.rises().collect();
        list.push(went(Step::ExcessPension, pension));
        list.push(went(Step::ChargeByFactor, self.by_factor(pension.number)));
        list
    }
}

impl TenPays {
    /// The roundings of the pension of three years: their one average and itself.
    fn pension_roundings(&self, last_year: usize) -> [Rounding; 2] {
        [
            went(Step::Average2008, self.average(last_year)),
            went(Step::Pension2008, self.pension(last_year)),
        ]
    }
}

impl Case {
    /// Every rounding of a worked case, of one aggregate for each year and of a final year of the
    /// section; refusal 13 where a factor is missing.
    pub fn roundings(
        &self,
        aggregates: &[Rounded],
        final_year: usize,
    ) -> Result<Vec<Rounding>, u64> {
        let mut list = self.year_roundings(aggregates);
        list.extend(self.section_roundings(final_year));
        list.extend(self.reduction_roundings(self.pension_2015(aggregates), final_year)?);
        list.extend(self.debit_roundings());
        let charge = self.final_pay.map(|pay| pay.charge_roundings(final_year));
        list.extend(charge.unwrap_or_default());
        Ok(list)
    }

    /// Those of each year: its aggregate, the pension so far revalued, the 54th.
    fn year_roundings(&self, aggregates: &[Rounded]) -> Vec<Rounding> {
        let mut list = Vec::new();
        let mut pension = 0;
        for (year, &aggregate) in self.years.iter().zip(aggregates) {
            let so_far = revalued(pension, year.revaluation);
            let added = accrued(aggregate.number);
            list.push(went(Step::Aggregate, aggregate));
            list.push(went(Step::Revaluation, so_far));
            list.push(went(Step::Accrual, added));
            pension = so_far.number + added.number;
        }
        list
    }

    /// Those of the section's pension.
    fn section_roundings(&self, final_year: usize) -> Vec<Rounding> {
        match (self.final_pay, self.ten_pays) {
            (Some(pay), _) => vec![went(Step::Pension1995, pay.pension(final_year))],
            (_, Some(pays)) => pays.pension_roundings(final_year).to_vec(),
            _ => Vec::new(),
        }
    }

    /// Those of the reductions. A scheme without months early rounds nothing here.
    fn reduction_roundings(
        &self,
        pension_2015: u64,
        final_year: usize,
    ) -> Result<Vec<Rounding>, u64> {
        let had = self.unreduced_benefits(pension_2015, final_year);
        let mut list = Vec::new();
        if let Some(factor) = self.factor(0)? {
            let pension = reduced(had.pension_2015, factor.pension);
            list.push(went(Step::Reduction2015, pension));
        }
        if let Some(factor) = self.factor(1)? {
            let pension = reduced(had.pension_1995, factor.pension);
            let lump_sum = reduced(had.lump_sum, factor.lump_sum);
            if self.has_lump_sum() {
                list.push(went(Step::Reduction1995, pension));
                list.push(went(Step::ReductionOfLumpSum, lump_sum));
            } else {
                list.push(went(Step::Reduction2008, pension));
            }
        }
        Ok(list)
    }

    /// Those of the debits that there are; a lump debit is none.
    fn debit_roundings(&self) -> Vec<Rounding> {
        let step = |scheme: u64| match scheme {
            0 => Step::Debit2015,
            _ if self.has_lump_sum() => Step::Debit1995,
            _ => Step::Debit2008,
        };
        let debits = self.debits.iter();
        debits
            .map(|debit| went(step(debit.scheme), pension_debit(debit.pot, debit.factor)))
            .collect()
    }

    /// The same of a case by the steps.
    pub fn own_roundings(&self) -> Result<Vec<Rounding>, u64> {
        self.roundings(&self.aggregates(), self.final_year())
    }
}
