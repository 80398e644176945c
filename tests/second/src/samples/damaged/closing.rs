//! Refusals 12 to 14: what a case lacks at its end.

use super::sheets::{refused_at_end, without_pays};
use super::Damaged;
use crate::calendar::{completed_by_last_day, Date};
use crate::cases::Case;
use crate::frames::{Debit, Factor};
use crate::random::Random;
use crate::samples::accepted::{self, whole_case, whole_case_in};
use crate::LARGEST_PAY;

/// The text of a case in the section without its pays.
fn no_pays(random: &mut Random, section: u64) -> Damaged {
    let mut case = whole_case_in(random, section);
    without_pays(&mut case);
    refused_at_end(&case)
}

pub(super) fn no_final_pay(random: &mut Random) -> Damaged {
    no_pays(random, 1)
}

pub(super) fn no_ten_pays(random: &mut Random) -> Damaged {
    no_pays(random, 2)
}

pub(super) fn twelve_first(random: &mut Random) -> Damaged {
    let mut case = whole_case(random);
    without_pays(&mut case);
    case.factors.clear();
    case.debits[0].pot = LARGEST_PAY;
    case.debits[0].factor = 1;
    refused_at_end(&case)
}

/// Takes away the factor that a scheme needs; at times the other scheme has one of its months.
fn without_factor(random: &mut Random, case: &mut Case, scheme: u64) {
    let months = case.months_early(scheme).expect("a scheme") as u64;
    let needed = |factor: &Factor| (factor.scheme, factor.months) == (scheme, months);
    case.factors.retain(|factor| !needed(factor));
    let other = Factor {
        scheme: 1 - scheme,
        months,
        pension: 900,
        lump_sum: 0,
    };
    let had = |factor: &Factor| (factor.scheme, factor.months) == (other.scheme, other.months);
    if random.one_in(2) && !case.factors.iter().any(had) {
        case.factors.push(other);
        case.factors
            .sort_by_key(|factor| (factor.scheme, factor.months));
    }
}

/// A case in either section with every kind of frame whose schemes are early by different months.
fn case_of_two_months(random: &mut Random) -> Case {
    let section = random.between(1, 2);
    case_of_two_months_in(random, section)
}

/// The same in a given section.
fn case_of_two_months_in(random: &mut Random, section: u64) -> Case {
    loop {
        let case = whole_case_in(random, section);
        if case.months_early(0) != case.months_early(1) {
            return case;
        }
    }
}

pub(super) fn no_factor_2015(random: &mut Random) -> Damaged {
    let mut case = case_of_two_months(random);
    without_factor(random, &mut case, 0);
    refused_at_end(&case)
}

/// The text of a case in the section without the section's factor.
fn no_section_factor(random: &mut Random, section: u64) -> Damaged {
    let mut case = case_of_two_months_in(random, section);
    without_factor(random, &mut case, 1);
    refused_at_end(&case)
}

pub(super) fn no_factor_1995(random: &mut Random) -> Damaged {
    no_section_factor(random, 1)
}

pub(super) fn no_factor_2008(random: &mut Random) -> Damaged {
    no_section_factor(random, 2)
}

/// A whole case of the 2008 Section that is so many months early there at least and at most.
fn case_2008_early(random: &mut Random, least: u64, most: u64) -> (Case, u64) {
    loop {
        let case = whole_case_in(random, 2);
        let months = case.months_early(1).expect("a section") as u64;
        if (least..=most).contains(&months) {
            return (case, months);
        }
    }
}

/// The one factor of the 2008 Section is for the months to 60, and not for those to 65.
pub(super) fn factor_to_60(random: &mut Random) -> Damaged {
    let (mut case, months) = case_2008_early(random, 61, 600);
    case.factors.retain(|factor| factor.scheme == 0);
    case.factors.push(Factor {
        scheme: 1,
        months: months - 60,
        pension: random.near_ends(0, 1_000),
        lump_sum: 0,
    });
    refused_at_end(&case)
}

/// Out at 60 or later, when the 1995 Section would reduce nothing, without the factor to 65.
pub(super) fn no_factor_past_60(random: &mut Random) -> Damaged {
    let (mut case, _) = case_2008_early(random, 1, 60);
    case.factors.retain(|factor| factor.scheme == 0);
    refused_at_end(&case)
}

pub(super) fn no_factor(random: &mut Random) -> Damaged {
    let mut case = case_of_two_months(random);
    if random.one_in(2) {
        case.factors.clear();
    } else {
        for scheme in 0..2 {
            let months = case.months_early(scheme);
            case.factors
                .retain(|factor| Some(factor.months as i64) != months);
        }
    }
    refused_at_end(&case)
}

pub(super) fn no_factor_of_nought(random: &mut Random) -> Damaged {
    let mut case = case_of_two_months(random);
    case.debits.clear();
    case.years.clear();
    if random.one_in(2) {
        let days_1995 = case.final_pay.as_mut().map(|pay| &mut pay.days);
        let days_2008 = case.ten_pays.as_mut().map(|pays| &mut pays.days);
        *days_1995.or(days_2008).expect("pays") = 0;
        without_factor(random, &mut case, 1);
    } else {
        without_factor(random, &mut case, 0);
    }
    refused_at_end(&case)
}

/// A case early in the 2015 Scheme whose last month a short month's last day completed.
fn case_by_last_day(random: &mut Random) -> Case {
    loop {
        let case = accepted::case(random);
        let member = case.member.expect("a member");
        let early = case.months_early(0).expect("a scheme") > 0;
        if early && completed_by_last_day(member.birth, member.retirement) {
            return case;
        }
    }
}

/// The factor is there for the months that comparing the day numbers would give, one more, and
/// not for those that are wanted.
pub(super) fn factor_of_day_numbers(random: &mut Random) -> Damaged {
    let mut case = case_by_last_day(random);
    let months = case.months_early(0).expect("a scheme") as u64;
    if months == 600 {
        return factor_of_day_numbers(random);
    }
    let wanted = |factor: &Factor| (factor.scheme, factor.months) == (0, months);
    let next = |factor: &Factor| (factor.scheme, factor.months) == (0, months + 1);
    case.factors.retain(|factor| !next(factor));
    let factor = case.factors.iter_mut().find(|factor| wanted(factor));
    factor.expect("the wanted factor").months += 1;
    refused_at_end(&case)
}

pub(super) fn too_early(random: &mut Random) -> Damaged {
    let mut case = accepted::case(random);
    let member = case.member.as_mut().expect("a member");
    member.pension_age = random.near_ends(60, 75);
    let latest = member.pension_age * 12 - 601;
    let months = random.near_ends(0, latest);
    let reached = member.birth.year * 12 + member.birth.month - 1 + months;
    if reached / 12 > 2100 {
        return too_early(random);
    }
    member.retirement = Date {
        year: reached / 12,
        month: reached % 12 + 1,
        day: member.birth.day,
    };
    if !member.retirement.exists() {
        return too_early(random);
    }
    refused_at_end(&case)
}

pub(super) fn thirteen_first(random: &mut Random) -> Damaged {
    let mut case = case_of_two_months(random);
    case.debits[0].pot = LARGEST_PAY;
    case.debits[0].factor = 1;
    without_factor(random, &mut case, 1);
    refused_at_end(&case)
}

/// A debit past an amount: by one, or far.
fn debit_past(random: &mut Random, scheme: u64, amount: u64) -> Option<Debit> {
    if random.one_in(4) {
        return Some(Debit {
            scheme,
            pot: LARGEST_PAY,
            factor: 1,
        });
    }
    accepted::debit_of(random, scheme, amount + 1)
}

pub(super) fn debit_past_2015(random: &mut Random) -> Damaged {
    let mut case = accepted::case(random);
    let had = case.reduced_benefits().expect("a case with its factors");
    case.debits.retain(|debit| debit.scheme == 1);
    match debit_past(random, 0, had.pension_2015) {
        Some(debit) if had.pension_2015 < 100_000_000_000 => {
            case.debits.insert(0, debit);
            refused_at_end(&case)
        }
        _ => debit_past_2015(random),
    }
}

pub(super) fn debit_past_1995(random: &mut Random) -> Damaged {
    let mut case = whole_case_in(random, 1);
    let had = case.reduced_benefits().expect("a case with its factors");
    // Mostly the lump sum still has room for the debit.
    let room = had.lump_sum / 3 > had.pension_1995 || random.one_in(20);
    match debit_past(random, 1, had.pension_1995) {
        Some(debit) if room => {
            case.debits[1] = debit;
            refused_at_end(&case)
        }
        _ => debit_past_1995(random),
    }
}

pub(super) fn debit_past_2008(random: &mut Random) -> Damaged {
    let mut case = whole_case_in(random, 2);
    let had = case.reduced_benefits().expect("a case with its factors");
    match debit_past(random, 1, had.pension_1995) {
        Some(debit) => {
            case.debits[1] = debit;
            refused_at_end(&case)
        }
        None => debit_past_2008(random),
    }
}

pub(super) fn debit_past_lump_sum(random: &mut Random) -> Damaged {
    let mut case = whole_case_in(random, 1);
    let had = case.reduced_benefits().expect("a case with its factors");
    let amount = had.lump_sum / 3 + 1;
    match accepted::debit_of(random, 1, amount) {
        Some(debit) if amount <= had.pension_1995 => {
            case.debits[1] = debit;
            refused_at_end(&case)
        }
        _ => debit_past_lump_sum(random),
    }
}
