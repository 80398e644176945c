//! A case, worked line by line.

use super::benefits::{
    after_year, pension_debit, reduced, section_pay_1995, Counted, SectionPay, TenPays,
};
use super::calendar::{completed_months, try_dates, Date};
use super::posts::{Post, YearPosts};
use super::reading::{line, why_no_frame};
use super::{unless, Rounded, LARGEST_PAY};
use second::benefits::FinalPay;
use second::Outcome;

/// The largest text in bytes, and the most years of a case.
const LARGEST_TEXT: usize = 32_768;
const MOST_YEARS: u64 = 50;

/// The section that a member has besides the 2015 Scheme.
#[derive(Clone, Copy, PartialEq, Eq)]
enum Section {
    None,
    Of1995,
    Of2008,
}

impl Section {
    /// The section of its number in an 01, or refusal 5.
    fn numbered(number: u64) -> Result<Section, u64> {
        match number {
            0 => Ok(Section::None),
            1 => Ok(Section::Of1995),
            2 => Ok(Section::Of2008),
            _ => Err(5),
        }
    }

    /// The pension age that an 01 has of it.
    fn pension_age(self) -> u64 {
        match self {
            Section::None => 0,
            Section::Of1995 => 60,
            Section::Of2008 => 65,
        }
    }

    /// How many times its pension the lump sum is; the lump sum's debit likewise.
    fn lump_sums(self) -> u64 {
        match self {
            Section::Of1995 => 3,
            Section::None | Section::Of2008 => 0,
        }
    }
}

/// What a case has come to, in the order of its frames.
#[derive(Clone, Copy, PartialEq, Eq, PartialOrd, Ord)]
enum Stage {
    Nothing,
    Member,
    Years,
    SectionPay,
    Factors,
    Debits,
}

/// A scheme's part of a case.
#[derive(Clone, Copy, Default)]
struct Scheme {
    months_early: i64,
    /// Pension and lump sum factor for exactly those months.
    factors: Option<(u64, u64)>,
    debit: Rounded,
}

/// Factors that reduce nothing, and by which all is exact.
const UNREDUCED: (u64, u64) = (1_000, 1_000);

impl Scheme {
    /// The factors that reduce pension and lump sum, or refusal 13 where they are missing.
    fn wanted_factors(&self) -> Result<(u64, u64), u64> {
        if self.months_early > 0 {
            self.factors.ok_or(13)
        } else {
            Ok(UNREDUCED)
        }
    }
}

struct Case {
    stage: Stage,
    section: Section,
    /// The 2015 Scheme and the section, whose months early are 0 where there is none.
    schemes: [Scheme; 2],
    years: u64,
    april: u64,
    revaluation: u64,
    posts: YearPosts,
    /// The 2015 pension of the years before the last.
    pension_2015: Counted,
    /// What the 04 or 08 gives.
    section_pay: Option<SectionPay>,
    /// The scheme and months of the last 05 in one number, and the scheme of the last 06, from 1.
    last_factor: u64,
    last_debit: u64,
}

impl Case {
    fn new() -> Case {
        Case {
            stage: Stage::Nothing,
            section: Section::None,
            schemes: [Scheme::default(); 2],
            years: 0,
            april: 0,
            revaluation: 0,
            posts: YearPosts::new(),
            pension_2015: Counted::default(),
            section_pay: None,
            last_factor: 0,
            last_debit: 0,
        }
    }

    /// Takes the line that the text begins with and gives the text after it.
    #[inline(always)]
    fn take_line<'t>(&mut self, text: &'t [u8]) -> Result<&'t [u8], u64> {
        match text {
            [b'0', b'3', ..] => self.take_post(text),
            [b'0', b'2', ..] => self.take_year(text),
            [b'0', b'1', ..] => self.take_member(text),
            [b'0', b'4', ..] => self.take_final_pay(text),
            [b'0', b'5', ..] => self.take_factor(text),
            [b'0', b'6', ..] => self.take_debit(text),
            [b'0', b'8', ..] => self.take_ten_pays(text),
            _ => Err(why_no_frame(text)),
        }
    }

    fn take_member<'t>(&mut self, text: &'t [u8]) -> Result<&'t [u8], u64> {
        let (frame, after) = line::<25, _>(text, |fields| {
            let birth = Date(fields.number(4));
            let retirement = Date(fields.number(4));
            let section = fields.number(1);
            let pension_ages = [fields.number(1), fields.number(1)];
            (birth, retirement, section, pension_ages)
        })?;
        let (birth, retirement, section, [pension_age, section_pension_age]) = frame;
        unless(self.stage == Stage::Nothing, 4)?;
        try_dates(birth, retirement)?;
        let section = Section::numbered(section)?;
        unless((55..=75).contains(&pension_age), 5)?;
        unless(section_pension_age == section.pension_age(), 28)?;
        let age = completed_months(birth, retirement);
        self.schemes[0].months_early = 12 * pension_age as i64 - age;
        if section != Section::None {
            self.schemes[1].months_early = 12 * section_pension_age as i64 - age;
        }
        self.section = section;
        self.stage = Stage::Member;
        Ok(after)
    }

    #[inline(always)]
    fn take_year<'t>(&mut self, text: &'t [u8]) -> Result<&'t [u8], u64> {
        let ((april, revaluation), after) =
            line::<11, _>(text, |fields| (fields.number(2), fields.number(2)))?;
        unless(matches!(self.stage, Stage::Member | Stage::Years), 4)?;
        unless((2015..=2100).contains(&april), 6)?;
        unless(self.years == 0 || april == self.april + 1, 6)?;
        unless(revaluation <= 2_000, 6)?;
        unless(self.years < MOST_YEARS, 6)?;
        self.pension_2015 = self.pension_after_year();
        self.posts.clear();
        self.years += 1;
        self.april = april;
        self.revaluation = revaluation;
        self.stage = Stage::Years;
        Ok(after)
    }

    /// The 2015 pension with the last year. Before any year there are no posts and no pension,
    /// which gives 0.
    #[inline(always)]
    fn pension_after_year(&self) -> Counted {
        after_year(self.pension_2015, self.revaluation, self.posts.aggregate())
    }

    #[inline(always)]
    fn take_post<'t>(&mut self, text: &'t [u8]) -> Result<&'t [u8], u64> {
        let (post, after) = line::<27, _>(text, |fields| Post {
            contracted: fields.number(2),
            whole_time: fields.number(2),
            pay: fields.number(4),
            supplement: fields.number(4),
        })?;
        unless(self.stage == Stage::Years, 4)?;
        self.posts.join(&post)?;
        Ok(after)
    }

    fn take_final_pay<'t>(&mut self, text: &'t [u8]) -> Result<&'t [u8], u64> {
        let (final_pay, after) = line::<57, _>(text, |fields| FinalPay {
            pays: [4; 4].map(|width| fields.number(width)),
            allowances: [2; 3].map(|width| fields.number(width)),
            controls: fields.number(1),
            days: fields.number(2),
            factor: fields.number(2),
        })?;
        self.try_pay_of(Section::Of1995)?;
        final_pay.tried()?;
        self.section_pay = Some(section_pay_1995(&final_pay));
        self.stage = Stage::SectionPay;
        Ok(after)
    }

    fn take_ten_pays<'t>(&mut self, text: &'t [u8]) -> Result<&'t [u8], u64> {
        let (ten_pays, after) = line::<87, _>(text, |fields| TenPays {
            pays: [4; 10].map(|width| fields.number(width)),
            days: fields.number(2),
        })?;
        self.try_pay_of(Section::Of2008)?;
        ten_pays.tried()?;
        self.section_pay = Some(ten_pays.section_pay());
        self.stage = Stage::SectionPay;
        Ok(after)
    }

    /// Refusal 4 of the pay frame of a section.
    fn try_pay_of(&self, section: Section) -> Result<(), u64> {
        let in_order = matches!(self.stage, Stage::Member | Stage::Years);
        unless(in_order && self.section == section, 4)
    }

    /// Whether a factor or debit may name the scheme.
    fn has_scheme(&self, scheme: u64) -> bool {
        scheme == 0 || (scheme == 1 && self.section != Section::None)
    }

    /// Whether the scheme has a lump sum.
    fn has_lump_sum(&self, scheme: u64) -> bool {
        scheme == 1 && self.section == Section::Of1995
    }

    fn take_factor<'t>(&mut self, text: &'t [u8]) -> Result<&'t [u8], u64> {
        let ((scheme, months, pension, lump_sum), after) = line::<17, _>(text, |fields| {
            let scheme = fields.number(1);
            let months = fields.number(2);
            (scheme, months, fields.number(2), fields.number(2))
        })?;
        unless((Stage::Member..=Stage::Factors).contains(&self.stage), 4)?;
        unless(self.has_scheme(scheme), 10)?;
        unless((1..=600).contains(&months), 10)?;
        unless(pension <= 1_000 && lump_sum <= 1_000, 10)?;
        unless(lump_sum == 0 || self.has_lump_sum(scheme), 10)?;
        let place = 1_000 * scheme + months;
        unless(place > self.last_factor, 10)?;
        let scheme = &mut self.schemes[scheme as usize];
        if scheme.months_early == months as i64 {
            scheme.factors = Some((pension, lump_sum));
        }
        self.last_factor = place;
        self.stage = Stage::Factors;
        Ok(after)
    }

    fn take_debit<'t>(&mut self, text: &'t [u8]) -> Result<&'t [u8], u64> {
        let ((scheme, pot, factor), after) = line::<17, _>(text, |fields| {
            (fields.number(1), fields.number(4), fields.number(2))
        })?;
        unless(self.stage != Stage::Nothing, 4)?;
        unless(self.has_scheme(scheme), 11)?;
        unless(pot <= LARGEST_PAY, 11)?;
        unless(factor != 0, 11)?;
        unless(scheme + 1 > self.last_debit, 11)?;
        self.schemes[scheme as usize].debit = pension_debit(pot, factor);
        self.last_debit = scheme + 1;
        self.stage = Stage::Debits;
        Ok(after)
    }

    /// The outcome, or the refusal of the closing.
    fn close(&self) -> Result<Outcome, u64> {
        unless(self.stage != Stage::Nothing, 4)?;
        unless(
            self.section == Section::None || self.section_pay.is_some(),
            12,
        )?;
        let [scheme, section] = &self.schemes;
        let (factor, _) = scheme.wanted_factors()?;
        let (section_factor, lump_factor) = section.wanted_factors()?;
        let pension_2015 = self.pension_after_year();
        let section_pay = self.section_pay.unwrap_or_default();
        let lump_sums = self.section.lump_sums();
        let pension = reduced(pension_2015.amount, factor);
        let section_pension = reduced(section_pay.pension, section_factor);
        let lump_sum = reduced(lump_sums * section_pay.pension, lump_factor);
        let less = |had: Rounded, debit: u64| had.number.checked_sub(debit).ok_or(14_u64);
        let reduced_ups = pension.ups() + section_pension.ups() + lump_sum.ups();
        let debit_ups = scheme.debit.ups() + section.debit.ups();
        Ok(Outcome {
            refusal: 0,
            line: 0,
            net_2015: less(pension, scheme.debit.number)?,
            net_1995: less(section_pension, section.debit.number)?,
            net_lump_sum: less(lump_sum, lump_sums * section.debit.number)?,
            charge: section_pay.charge,
            rounded_up: pension_2015.ups + section_pay.ups + reduced_ups + debit_ups,
        })
    }
}

/// The outcome of a refused text.
#[cold]
fn refused(refusal: u64, line: u64) -> Outcome {
    Outcome {
        refusal,
        line,
        ..Outcome::default()
    }
}

/// The case call: what a text gives.
#[inline(never)]
pub fn case(text: &[u8]) -> Outcome {
    if text.len() > LARGEST_TEXT {
        return refused(1, 0);
    }
    let mut case = Case::new();
    let mut rest = text;
    let mut number = 0;
    while !rest.is_empty() {
        number += 1;
        match case.take_line(rest) {
            Ok(after) => rest = after,
            Err(refusal) => return refused(refusal, number),
        }
    }
    case.close().unwrap_or_else(|refusal| refused(refusal, 0))
}
