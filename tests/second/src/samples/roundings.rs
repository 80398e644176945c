//! Cases in which every step that rounds goes up, but for the revaluation of nothing in the first year.

use crate::benefits::{accrued, pension_debit, reduced, revalued};
use crate::cases::{Case, Year, MOST_YEARS};
use crate::frames::{Debit, Factor, Member};
use crate::posts::{aggregate, Post};
use crate::random::Random;
use crate::samples::accepted::{final_pay, member, most_section_debit, small_posts};
use crate::samples::supplements::with_supplements;
use crate::samples::ten_pays::ten_pays;
use crate::wide::{Rounded, Way};

/// How often something is drawn before the whole case is given up.
const TRIES: usize = 20_000;

/// Draws until the test is passed.
fn drawn<Of>(
    random: &mut Random,
    draw: impl Fn(&mut Random) -> Of,
    test: impl Fn(&Of) -> bool,
) -> Option<Of> {
    (0..TRIES).map(|_| draw(random)).find(test)
}

fn up(given: Rounded) -> bool {
    given.way == Way::Up
}

/// Whether all roundings of a case go up.
fn all_up(case: &Case) -> bool {
    let list = case.own_roundings();
    list.map_or(false, |list| list.iter().all(|(_, way)| *way == Way::Up))
}

/// Posts whose aggregate and its 54th go up, the latter to 3 pence at least: less could not go up with
/// the revaluations that there are.
fn posts_going_up(random: &mut Random) -> Option<Vec<Post>> {
    let draw = |random: &mut Random| {
        let posts = small_posts(random, 4, 6, 2_000);
        with_supplements(random, posts, 2_000)
    };
    drawn(random, draw, |posts| {
        let pay = aggregate(posts);
        let added = accrued(pay.number);
        up(pay) && up(added) && added.number >= 3
    })
}

/// So many years, the pension of each going up in the next.
fn years_going_up(random: &mut Random, count: u64) -> Option<Vec<Year>> {
    let mut pension = 0;
    let mut years = Vec::new();
    let first = random.near_ends(2015, 2101 - count);
    for april in first..first + count {
        let posts = posts_going_up(random)?;
        let draw = |random: &mut Random| random.between(0, 2_000);
        let test = |given: &u64| pension == 0 || up(revalued(pension, *given));
        let revaluation = drawn(random, draw, test)?;
        pension = revalued(pension, revaluation).number;
        pension += accrued(aggregate(&posts).number).number;
        years.push(Year {
            april,
            revaluation,
            posts,
        });
    }
    Some(years)
}

/// A member who is early in the 2015 Scheme and in the section, if there is one.
fn early_member(random: &mut Random, section: u64) -> Option<Member> {
    let draw = |random: &mut Random| member(random, section);
    drawn(random, draw, |&member| {
        let case = Case {
            member: Some(member),
            ..Case::default()
        };
        let early = |scheme| case.months_early(scheme).map_or(true, |months| months > 0);
        early(0) && early(1)
    })
}

/// The section's pays, if there is one, all of whose roundings go up.
fn with_pays(random: &mut Random, section: u64) -> Option<Case> {
    let draw = |random: &mut Random| {
        let mut case = Case::default();
        match section {
            0 => {}
            1 => {
                let mut pay = final_pay(random);
                pay.controls = 7;
                case.final_pay = Some(pay);
            }
            _ => case.ten_pays = Some(ten_pays(random)),
        }
        case
    };
    drawn(random, draw, all_up)
}

/// A factor in thousandths by which an amount goes up; 0 for no amount.
fn factor_going_up(random: &mut Random, amount: u64) -> Option<u64> {
    let draw = |random: &mut Random| random.between(0, 1_000);
    let test = |factor: &u64| amount == 0 || up(reduced(amount, *factor));
    let factor = drawn(random, draw, test)?;
    Some(if amount == 0 { 0 } else { factor })
}

/// The factor of a scheme, for a pension and a lump sum that go up by it.
fn needed_factor(
    random: &mut Random,
    case: &Case,
    scheme: u64,
    pension: u64,
    lump_sum: u64,
) -> Option<Factor> {
    Some(Factor {
        scheme,
        months: case.months_early(scheme)? as u64,
        pension: factor_going_up(random, pension)?,
        lump_sum: factor_going_up(random, lump_sum)?,
    })
}

/// A debit that goes up to the amount at most.
fn debit_going_up(random: &mut Random, scheme: u64, most: u64) -> Option<Debit> {
    let draw = |random: &mut Random| Debit {
        scheme,
        pot: random.of_any_size(1_000_000),
        factor: random.between(101, 5_000),
    };
    drawn(random, draw, |debit| {
        let taken = pension_debit(debit.pot, debit.factor);
        up(taken) && taken.number <= most
    })
}

fn tried_case(random: &mut Random, section: u64, years: u64) -> Option<Case> {
    let mut case = with_pays(random, section)?;
    case.member = Some(early_member(random, section)?);
    case.years = years_going_up(random, years)?;
    let pension_2015 = case.pension_2015(&case.aggregates());
    let had = case.unreduced_benefits(pension_2015, case.final_year());
    let factor = needed_factor(random, &case, 0, had.pension_2015, 0)?;
    case.factors.push(factor);
    if section != 0 {
        let factor = needed_factor(random, &case, 1, had.pension_1995, had.lump_sum)?;
        case.factors.push(factor);
    }
    let had = case.reduced_benefits().ok()?;
    case.debits
        .push(debit_going_up(random, 0, had.pension_2015)?);
    if section != 0 {
        let most = most_section_debit(&case, &had);
        case.debits.push(debit_going_up(random, 1, most)?);
    }
    Some(case)
}

/// An accepted case in which all goes up, half of them of the most years.
pub fn case_going_up(random: &mut Random) -> Case {
    let section = random.below(3);
    let few = random.between(2, 10);
    let years = random.pick(&[few, MOST_YEARS as u64]);
    loop {
        if let Some(case) = tried_case(random, section, years) {
            return case;
        }
    }
}

#[cfg(test)]
mod tests {
    use super::*;
    use crate::cases::read;
    use crate::roundings::{rounded_up, Step};
    use crate::samples::writing::case_text;

    #[test]
    fn all_but_the_first_revaluation_go_up() {
        let mut random = Random::new(0x0206);
        for _ in 0..60 {
            let case = case_going_up(&mut random);
            assert_eq!(read(&case_text(&case)), Ok(case.clone()));
            let list = case.own_roundings().expect("a worked case");
            let not_up: Vec<_> = list.iter().filter(|(_, way)| *way != Way::Up).collect();
            assert_eq!(not_up, [&(Step::Revaluation, Way::Exact)]);
            let closed = case.close().expect("a worked case");
            assert_eq!(closed.rounded_up, rounded_up(&list));
            assert_eq!(closed.rounded_up + 1, list.len() as u64);
        }
    }
}
