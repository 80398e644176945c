//! A case: the frames kept, their order and fields, and its closing.

use crate::benefits::{after_year, pension_debit, reduced, FinalPay};
use crate::calendar::{months_before, try_dates, SECTION_PENSION_AGES};
use crate::changes::join;
use crate::frames::{frame, line_bytes, lines, Debit, Factor, Frame, Member, LARGEST_TEXT};
use crate::posts::{aggregate, Post};
use crate::roundings::{most_roundings, rounded_up};
use crate::ten_pays::TenPays;
use crate::wide::Rounded;
use crate::{unless, LARGEST_PAY};

/// The most years of a case.
pub const MOST_YEARS: usize = 50;

/// An April year with its revaluation and its posts.
#[derive(Clone, Debug, PartialEq, Eq)]
pub struct Year {
    pub april: u64,
    pub revaluation: u64,
    pub posts: Vec<Post>,
}

/// The frames kept so far.
#[derive(Clone, Debug, Default, PartialEq, Eq)]
pub struct Case {
    pub member: Option<Member>,
    pub years: Vec<Year>,
    pub final_pay: Option<FinalPay>,
    pub ten_pays: Option<TenPays>,
    pub factors: Vec<Factor>,
    pub debits: Vec<Debit>,
}

/// Pensions and lump sum, in pence. What a section gives stands in the 1995 place.
#[derive(Clone, Copy, Debug, Default, PartialEq, Eq)]
pub struct Benefits {
    pub pension_2015: u64,
    pub pension_1995: u64,
    pub lump_sum: u64,
}

/// What a text gives.
#[derive(Clone, Copy, Debug, Default, PartialEq, Eq)]
pub struct Outcome {
    pub refusal: u64,
    pub line: u64,
    pub net_2015: u64,
    pub net_1995: u64,
    pub net_lump_sum: u64,
    pub charge: u64,
    /// How many of the roundings on the way went up.
    pub rounded_up: u64,
}

impl Outcome {
    /// That of a refusal at a line.
    pub fn refused(refusal: u64, line: u64) -> Outcome {
        Outcome {
            refusal,
            line,
            ..Outcome::default()
        }
    }
}

/// Refusal 5 of a member, then 28.
fn try_member(member: &Member) -> Result<(), u64> {
    try_dates(member.birth, member.retirement, member.pension_age)?;
    let recorded = SECTION_PENSION_AGES.get(member.section as usize);
    let section_pension_age = recorded.ok_or(5u64)?;
    unless(member.section_pension_age == *section_pension_age, 28)
}

impl Case {
    /// The member's section; 0 where there is none or no member yet.
    pub fn section(&self) -> u64 {
        self.member.map_or(0, |member| member.section)
    }

    /// Whether there is a lump sum, to be reduced and debited: in the 1995 Section alone.
    pub fn has_lump_sum(&self) -> bool {
        self.section() == 1
    }

    /// The lump sum of a pension, or the lump debit of a pension debit.
    fn lump_sum_of(&self, pension: u64) -> u64 {
        if self.has_lump_sum() {
            3 * pension
        } else {
            0
        }
    }

    /// Whether the section's own pays are there, if there is a section.
    fn has_pays(&self) -> bool {
        match self.section() {
            1 => self.final_pay.is_some(),
            2 => self.ten_pays.is_some(),
            _ => true,
        }
    }

    /// Refusal 4: whether the frame may come now.
    fn try_order(&self, frame: &Frame) -> Result<(), u64> {
        let no_pays = self.final_pay.is_none() && self.ten_pays.is_none();
        let before_pays = no_pays && self.factors.is_empty() && self.debits.is_empty();
        let allowed = match frame {
            Frame::Member(_) => self.member.is_none(),
            Frame::Year { .. } => before_pays,
            Frame::Post(_) => before_pays && !self.years.is_empty(),
            Frame::FinalPay(_) => before_pays && self.section() == 1,
            Frame::TenPays(_) => before_pays && self.section() == 2,
            Frame::Factor(_) => self.debits.is_empty(),
            Frame::Debit(_) => true,
        };
        let first = matches!(frame, Frame::Member(_));
        unless(allowed && (first || self.member.is_some()), 4)
    }

    /// Refusal 6.
    fn try_year(&self, april: u64, revaluation: u64) -> Result<(), u64> {
        unless((2015..=2100).contains(&april), 6)?;
        unless(
            self.years
                .last()
                .map_or(true, |last| april == last.april + 1),
            6,
        )?;
        unless(revaluation <= 2_000, 6)?;
        unless(self.years.len() < MOST_YEARS, 6)
    }

    /// Whether a factor or debit may name the scheme.
    fn knows_scheme(&self, scheme: u64) -> bool {
        scheme == 0 || (scheme == 1 && self.section() != 0)
    }

    /// Refusal 10.
    fn try_factor(&self, factor: &Factor) -> Result<(), u64> {
        unless(self.knows_scheme(factor.scheme), 10)?;
        unless((1..=600).contains(&factor.months), 10)?;
        unless(factor.pension <= 1_000 && factor.lump_sum <= 1_000, 10)?;
        let of_lump_sum = factor.scheme == 1 && self.has_lump_sum();
        unless(of_lump_sum || factor.lump_sum == 0, 10)?;
        let after = |last: &Factor| (factor.scheme, factor.months) > (last.scheme, last.months);
        unless(self.factors.last().map_or(true, after), 10)
    }

    /// Refusal 11.
    fn try_debit(&self, debit: &Debit) -> Result<(), u64> {
        unless(self.knows_scheme(debit.scheme), 11)?;
        unless(debit.pot <= LARGEST_PAY, 11)?;
        unless(debit.factor != 0, 11)?;
        let after = |last: &Debit| debit.scheme > last.scheme;
        unless(self.debits.last().map_or(true, after), 11)
    }

    /// Takes a frame, or refuses it and keeps the case as it is.
    pub fn take(&mut self, frame: Frame) -> Result<(), u64> {
        self.try_order(&frame)?;
        match frame {
            Frame::Member(member) => {
                try_member(&member)?;
                self.member = Some(member);
            }
            Frame::Year { april, revaluation } => {
                self.try_year(april, revaluation)?;
                self.years.push(Year {
                    april,
                    revaluation,
                    posts: Vec::new(),
                });
            }
            Frame::Post(post) => {
                let year = self.years.last_mut().ok_or(4u64)?;
                join(&mut year.posts, post)?;
            }
            Frame::FinalPay(final_pay) => {
                final_pay.tried()?;
                self.final_pay = Some(final_pay);
            }
            Frame::TenPays(ten_pays) => {
                ten_pays.tried()?;
                self.ten_pays = Some(ten_pays);
            }
            Frame::Factor(factor) => {
                self.try_factor(&factor)?;
                self.factors.push(factor);
            }
            Frame::Debit(debit) => {
                self.try_debit(&debit)?;
                self.debits.push(debit);
            }
        }
        Ok(())
    }

    /// Months early by scheme; nothing without a member or, for scheme 1, without a section.
    pub fn months_early(&self, scheme: u64) -> Option<i64> {
        let member = self.member?;
        let pension_age = match scheme {
            0 => member.pension_age,
            _ if member.section == 0 => return None,
            _ => member.section_pension_age,
        };
        Some(months_before(member.birth, member.retirement, pension_age))
    }

    /// The factor that reduces a scheme: none if nothing is reduced, refusal 13 if it is missing.
    pub fn factor(&self, scheme: u64) -> Result<Option<Factor>, u64> {
        let Some(months @ 1..) = self.months_early(scheme) else {
            return Ok(None);
        };
        let wanted = |factor: &&Factor| factor.scheme == scheme && factor.months as i64 == months;
        let found = self.factors.iter().find(wanted).ok_or(13u64)?;
        Ok(Some(*found))
    }

    /// The debits of both schemes.
    pub fn benefit_debits(&self) -> Benefits {
        let of = |scheme: u64| {
            let debit = self.debits.iter().find(|debit| debit.scheme == scheme);
            debit.map_or(0, |debit| pension_debit(debit.pot, debit.factor).number)
        };
        Benefits {
            pension_2015: of(0),
            pension_1995: of(1),
            lump_sum: self.lump_sum_of(of(1)),
        }
    }

    /// The 2015 pension before reduction, of one aggregate for each year.
    pub fn pension_2015(&self, aggregates: &[Rounded]) -> u64 {
        let years = self.years.iter().zip(aggregates);
        years.fold(0, |pension, (year, aggregate)| {
            after_year(pension, year.revaluation, aggregate.number)
        })
    }

    /// The section's pension before reduction, of the final pay of a year or of the three years of
    /// which it is the last.
    fn section_pension(&self, final_year: usize) -> u64 {
        let of_1995 = self.final_pay.map(|pay| pay.pension(final_year));
        let of_2008 = self.ten_pays.map(|pays| pays.pension(final_year));
        of_1995.or(of_2008).map_or(0, |pension| pension.number)
    }

    /// Benefits before reduction, of a 2015 pension and of a final year of the section.
    pub fn unreduced_benefits(&self, pension_2015: u64, final_year: usize) -> Benefits {
        let pension = self.section_pension(final_year);
        Benefits {
            pension_2015,
            pension_1995: pension,
            lump_sum: self.lump_sum_of(pension),
        }
    }

    /// The same after reduction.
    pub fn benefits(&self, pension_2015: u64, final_year: usize) -> Result<Benefits, u64> {
        let mut benefits = self.unreduced_benefits(pension_2015, final_year);
        if let Some(factor) = self.factor(0)? {
            benefits.pension_2015 = reduced(benefits.pension_2015, factor.pension).number;
        }
        if let Some(factor) = self.factor(1)? {
            benefits.pension_1995 = reduced(benefits.pension_1995, factor.pension).number;
            benefits.lump_sum = reduced(benefits.lump_sum, factor.lump_sum).number;
        }
        Ok(benefits)
    }

    /// The year of final pay or the last of the best three; year 1 stands for it where there is no
    /// section.
    pub fn final_year(&self) -> usize {
        let of_1995 = self.final_pay.map(|pay| pay.final_year());
        let of_2008 = self.ten_pays.map(|pays| pays.best_year());
        of_1995.or(of_2008).unwrap_or(1)
    }

    /// The aggregate of each year by the posts step.
    pub fn aggregates(&self) -> Vec<Rounded> {
        self.years.iter().map(|y| aggregate(&y.posts)).collect()
    }

    /// The benefits after reduction by the steps, before debits.
    pub fn reduced_benefits(&self) -> Result<Benefits, u64> {
        self.benefits(self.pension_2015(&self.aggregates()), self.final_year())
    }

    /// The outcome of an accepted case, or the refusal of its closing.
    pub fn close(&self) -> Result<Outcome, u64> {
        self.close_with(&self.aggregates(), self.final_year())
    }

    /// The same of one aggregate for each year and of a final year of the section.
    pub fn close_with(&self, aggregates: &[Rounded], final_year: usize) -> Result<Outcome, u64> {
        unless(self.member.is_some(), 4)?;
        unless(self.has_pays(), 12)?;
        let had = self.benefits(self.pension_2015(aggregates), final_year)?;
        let debits = self.benefit_debits();
        let less = |amount: u64, debit: u64| amount.checked_sub(debit).ok_or(14u64);
        Ok(Outcome {
            net_2015: less(had.pension_2015, debits.pension_2015)?,
            net_1995: less(had.pension_1995, debits.pension_1995)?,
            net_lump_sum: less(had.lump_sum, debits.lump_sum)?,
            charge: self.final_pay.map_or(0, |pay| pay.charge_for(final_year)),
            rounded_up: self.rounded_up(aggregates, final_year)?,
            ..Outcome::default()
        })
    }

    /// The count of its upward roundings.
    fn rounded_up(&self, aggregates: &[Rounded], final_year: usize) -> Result<u64, u64> {
        let list = self.roundings(aggregates, final_year)?;
        assert!(list.len() <= most_roundings(self.section()));
        Ok(rounded_up(&list))
    }
}

/// The case of a text, or a refusal and its line.
pub fn read(text: &[u8]) -> Result<Case, (u64, u64)> {
    if text.len() > LARGEST_TEXT {
        return Err((1, 0));
    }
    let mut case = Case::default();
    for (number, line) in (1..).zip(lines(text)) {
        line_bytes(&line)
            .and_then(|bytes| frame(&bytes))
            .and_then(|frame| case.take(frame))
            .map_err(|refusal| (refusal, number))?;
    }
    Ok(case)
}

/// The case call: what a text gives.
pub fn case(text: &[u8]) -> Outcome {
    let worked = read(text).and_then(|case| case.close().map_err(|refusal| (refusal, 0)));
    worked.unwrap_or_else(|(refusal, line)| Outcome::refused(refusal, line))
}

/// The printed line of an outcome.
pub fn printed(outcome: &Outcome) -> Vec<u8> {
    let line = if outcome.refusal == 0 {
        format!(
            "80{:016X}{:016X}{:016X}{:016X}{:04X}\n",
            outcome.net_2015,
            outcome.net_1995,
            outcome.net_lump_sum,
            outcome.charge,
            outcome.rounded_up
        )
    } else {
        format!("EE{:02X}{:04X}\n", outcome.refusal, outcome.line)
    };
    line.into_bytes()
}
