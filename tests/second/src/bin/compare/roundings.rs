//! The classes of accepted cases by their roundings: each step that rounds gone each way, and counts of
//! upward ones.

use crate::classes::{any_year, Test};
use crate::supplements::has_supplement;
use crate::tally::Tally;
use second::benefits::reduced;
use second::cases::Case;
use second::posts::{aggregate, parts_of, rival_aggregate, Post};
use second::roundings::{rounded_up, Rounding, Step};
use second::ten_pays::TenPays;
use second::wide::{Rounded, Way};

/// The least number of cases in which a step goes a way.
const LEAST: u64 = 1_000;

/// An accepted case and its roundings.
pub struct Listed {
    case: Case,
    list: Vec<Rounding>,
}

impl Listed {
    pub fn of(case: &Case) -> Listed {
        Listed {
            list: case.own_roundings().expect("an accepted case"),
            case: case.clone(),
        }
    }

    fn count(&self) -> u64 {
        rounded_up(&self.list)
    }

    /// Whether in the section, or without, so many go up.
    fn has(&self, section: u64, count: u64) -> bool {
        self.case.section() == section && self.count() == count
    }

    /// Whether one of these steps goes up and nothing else.
    fn up_alone(&self, steps: &[Step]) -> bool {
        let up = |(step, way): &Rounding| *way == Way::Up && steps.contains(step);
        self.count() == 1 && self.list.iter().any(up)
    }
}

fn every_rounding() -> impl Iterator<Item = Rounding> {
    let ways = |step| Way::ALL.map(|way| (step, way));
    Step::ALL.into_iter().flat_map(ways)
}

fn words_of(call: &str, (step, way): Rounding) -> String {
    let way = match way {
        Way::Exact => "exact",
        Way::Down => "rounded down",
        Way::Up => "rounded up",
    };
    format!("{call}: {}, {way}", step.words())
}

/// Counts a case once for each way that each of its steps goes.
pub fn classify_roundings(tally: &mut Tally, call: &str, listed: &Listed) {
    let had = |rounding: &Rounding| listed.list.contains(rounding);
    for rounding in every_rounding().filter(had) {
        tally.add(&words_of(call, rounding));
    }
}

pub fn expect_roundings(tally: &mut Tally, call: &str) {
    for rounding in every_rounding() {
        tally.expect(&words_of(call, rounding), LEAST);
    }
}

fn goes_up(given: Option<Rounded>) -> bool {
    given.map_or(false, |given| given.way == Way::Up)
}

/// Whether a rise to another year than that of final pay goes up.
fn up_beside_final_pay(listed: &Listed) -> bool {
    listed.case.final_pay.map_or(false, |given| {
        let mut others = (1..=3).filter(|&year| year != given.final_year());
        others.any(|year| goes_up(given.rise(year)))
    })
}

/// Whether the rise to a year that is not controlled would go up if all years were.
fn up_but_for_control(listed: &Listed) -> bool {
    listed.case.final_pay.map_or(false, |given| {
        let mut all = given;
        all.controls = 7;
        (1..=3).any(|year| !given.controlled(year) && goes_up(all.rise(year)))
    })
}

/// Whether an average that is not taken goes up while the one taken does not.
fn other_average_up(listed: &Listed) -> bool {
    listed.case.ten_pays.map_or(false, |given| {
        let up = |year| given.average(year).way == Way::Up;
        !up(given.best_year()) && TenPays::last_years().any(up)
    })
}

/// Whether the pension of a scheme without months early would go up by a factor of the scheme.
fn up_but_for_months(listed: &Listed) -> bool {
    let case = &listed.case;
    let had = case.reduced_benefits().expect("an accepted case");
    let pensions = [had.pension_2015, had.pension_1995];
    case.factors.iter().any(|factor| {
        let not_early = case.factor(factor.scheme) == Ok(None);
        let by_factor = reduced(pensions[factor.scheme as usize], factor.pension);
        not_early && by_factor.way == Way::Up
    })
}

/// Whether the aggregate of posts with a supplement goes up.
fn up_with_supplement(posts: &[Post]) -> bool {
    has_supplement(posts) && aggregate(posts).way == Way::Up
}

/// Whether an aggregate goes up which would not if posts in full counted minutes times rate, or the
/// other way round.
fn up_by_full_posts(posts: &[Post]) -> bool {
    let up = |given: Rounded| given.way == Way::Up;
    up(aggregate(posts)) != up(rival_aggregate(posts, &parts_of(posts)))
}

/// The classes that are about more than one step.
pub const COUNT_CLASSES: &[Test<Listed>] = &[
    ("nothing rounded up", 1_000, |listed| listed.count() == 0),
    ("one amount rounded up", 1_000, |listed| listed.count() == 1),
    ("a year's step alone rounded up", 1_000, |listed| {
        listed.up_alone(&[Step::Aggregate, Step::Revaluation, Step::Accrual])
    }),
    ("a section's pension alone rounded up", 200, |listed| {
        listed.up_alone(&[Step::Pension1995, Step::Average2008, Step::Pension2008])
    }),
    ("a reduced pension alone rounded up", 200, |listed| {
        listed.up_alone(&[
            Step::Reduction2015,
            Step::Reduction1995,
            Step::Reduction2008,
        ])
    }),
    ("the lump sum alone rounded up", 50, |listed| {
        listed.up_alone(&[Step::ReductionOfLumpSum])
    }),
    ("a debit alone rounded up", 200, |listed| {
        listed.up_alone(&[Step::Debit2015, Step::Debit1995, Step::Debit2008])
    }),
    ("an allowed year alone rounded up", 200, |listed| {
        listed.up_alone(&[Step::Allowed3, Step::Allowed2, Step::Allowed1])
    }),
    ("a step of the charge alone rounded up", 20, |listed| {
        listed.up_alone(&[Step::ExcessPension, Step::ChargeByFactor])
    }),
    ("more than 15 rounded up", 500, |listed| listed.count() > 15),
    ("more than 127 rounded up", 50, |listed| {
        listed.count() > 127
    }),
    ("all but one rounded up without a section", 20, |listed| {
        listed.has(0, 151)
    }),
    ("all but one rounded up in the 1995 Section", 20, |listed| {
        listed.has(1, 160)
    }),
    ("all but one rounded up in the 2008 Section", 20, |listed| {
        listed.has(2, 155)
    }),
    (
        "an aggregate with a supplement alone rounded up",
        100,
        |listed| listed.up_alone(&[Step::Aggregate]) && any_year(&listed.case, up_with_supplement),
    ),
    (
        "an aggregate up, or not, by p + s of full posts",
        1_000,
        |listed| any_year(&listed.case, up_by_full_posts),
    ),
    (
        "all but one rounded up, years with supplements among them",
        100,
        |listed| {
            listed.count() + 1 == listed.list.len() as u64
                && any_year(&listed.case, up_with_supplement)
        },
    ),
    (
        "an allowed year rounded up beside that of final pay",
        1_000,
        up_beside_final_pay,
    ),
    (
        "an allowed year not controlled, else rounded up",
        1_000,
        up_but_for_control,
    ),
    (
        "2008, an average not taken, else rounded up",
        1_000,
        other_average_up,
    ),
    (
        "a pension not reduced, else rounded up",
        1_000,
        up_but_for_months,
    ),
];
