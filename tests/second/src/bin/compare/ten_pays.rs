//! The classes of accepted cases of the 2008 Section.

use crate::classes::{by_last_day, debited, early, used_up, Test};
use second::cases::Case;
use second::ten_pays::{TenPays, MOST_DAYS};
use second::wide::rounded;
use second::LARGEST_PAY;

/// Whether there are ten pays that pass the test.
fn pays(case: &Case, test: fn(&TenPays) -> bool) -> bool {
    case.ten_pays.as_ref().map_or(false, test)
}

/// The years in which the best threes end.
fn best_years(given: &TenPays) -> Vec<usize> {
    let highest = given.sum(given.best_year());
    TenPays::last_years()
        .filter(|&year| given.sum(year) == highest)
        .collect()
}

/// Whether the best three end in this year and no others are as good.
fn best_alone(case: &Case, year: usize) -> bool {
    case.ten_pays
        .map_or(false, |given| best_years(&given) == [year])
}

/// Whether the best threes are several, no two of them sharing a year.
fn best_apart(given: &TenPays) -> bool {
    let years = best_years(given);
    years.len() > 1 && years.windows(2).all(|pair| pair[1] - pair[0] > 2)
}

/// Whether another three, worse before rounding, have the same rounded average.
fn equal_by_rounding(given: &TenPays) -> bool {
    let best = given.best_year();
    let average = |year| given.average(year).number;
    TenPays::last_years()
        .any(|year| given.sum(year) < given.sum(best) && average(year) == average(best))
}

/// Whether the highest pay of all is in none of the best threes.
fn highest_outside(given: &TenPays) -> bool {
    let highest = given.pays.iter().max().expect("ten pays");
    best_years(given)
        .iter()
        .all(|&year| !given.three(year).contains(highest))
}

fn rises(pays: &[u64]) -> bool {
    pays.windows(2).all(|pair| pair[0] < pair[1])
}

/// Whether the best sum leaves this rest when it is divided by three.
fn rest(given: &TenPays, rest: u64) -> bool {
    given.sum(given.best_year()) % 3 == rest
}

/// Whether the unrounded average would give another pension.
fn average_decides(given: &TenPays) -> bool {
    let best = given.best_year();
    let unrounded = u128::from(given.sum(best)) * u128::from(given.days);
    rounded(unrounded, 3 * 21_900) != given.pension(best).number
}

fn half_in_pension(given: &TenPays) -> bool {
    given.average(given.best_year()).number * given.days % 21_900 == 10_950
}

/// Months early in the 2008 Section.
fn months_2008(case: &Case) -> Option<i64> {
    case.ten_pays.and_then(|_| case.months_early(1))
}

fn in_2008(case: &Case) -> bool {
    case.ten_pays.is_some()
}

/// Whether something is debited, three times which would be above a lump sum of 0.
fn debit_above_nought(case: &Case) -> bool {
    in_2008(case) && case.benefit_debits().pension_1995 > 0
}

/// Those classes.
pub const TEN_PAYS_CLASSES: &[Test<Case>] = &[
    ("the 2008 Section", 20_000, in_2008),
    ("2008, best three to year 8", 500, |case| {
        best_alone(case, 8)
    }),
    ("2008, best three to year 7", 500, |case| {
        best_alone(case, 7)
    }),
    ("2008, best three to year 6", 500, |case| {
        best_alone(case, 6)
    }),
    ("2008, best three to year 5", 500, |case| {
        best_alone(case, 5)
    }),
    ("2008, best three to year 4", 500, |case| {
        best_alone(case, 4)
    }),
    ("2008, best three to year 3", 500, |case| {
        best_alone(case, 3)
    }),
    ("2008, best three to year 2", 500, |case| {
        best_alone(case, 2)
    }),
    ("2008, best three to year 1", 500, |case| {
        best_alone(case, 1)
    }),
    ("2008, equal threes", 1_000, |case| {
        pays(case, |given| best_years(given).len() > 1)
    }),
    ("2008, equal threes apart", 500, |case| {
        pays(case, best_apart)
    }),
    ("2008, ten equal pays", 500, |case| {
        pays(case, |given| best_years(given).len() == 8)
    }),
    ("2008, equal averages by rounding", 500, |case| {
        pays(case, equal_by_rounding)
    }),
    ("2008, the highest pay in no best three", 200, |case| {
        pays(case, highest_outside)
    }),
    ("2008, rising pays", 500, |case| {
        pays(case, |given| rises(&given.pays))
    }),
    ("2008, falling pays", 500, |case| {
        pays(case, |given| {
            let mut turned = given.pays;
            turned.reverse();
            rises(&turned)
        })
    }),
    ("2008, an exact average", 1_000, |case| {
        pays(case, |given| rest(given, 0))
    }),
    ("2008, an average rounded down", 1_000, |case| {
        pays(case, |given| rest(given, 1))
    }),
    ("2008, an average rounded up", 1_000, |case| {
        pays(case, |given| rest(given, 2))
    }),
    ("2008, a rounded average that decides", 100, |case| {
        pays(case, average_decides)
    }),
    ("2008, a half in the pension", 500, |case| {
        pays(case, half_in_pension)
    }),
    ("2008, a pay at its limit", 1_000, |case| {
        pays(case, |given| given.pays.contains(&LARGEST_PAY))
    }),
    ("2008, all at their limits", 200, |case| {
        pays(case, |given| {
            given.pays == [LARGEST_PAY; 10] && given.days == MOST_DAYS
        })
    }),
    ("2008, no days", 1_000, |case| {
        pays(case, |given| given.days == 0)
    }),
    ("2008, the most days", 1_000, |case| {
        pays(case, |given| given.days == MOST_DAYS)
    }),
    ("2008, early in both", 1_000, |case| {
        in_2008(case) && early(case, 0) && early(case, 1)
    }),
    ("2008, early in the 2015 Scheme alone", 500, |case| {
        in_2008(case) && early(case, 0) && !early(case, 1)
    }),
    ("2008, early in the section alone", 500, |case| {
        in_2008(case) && !early(case, 0) && early(case, 1)
    }),
    ("2008, early at 60 or later", 1_000, |case| {
        months_2008(case).map_or(false, |months| (1..=60).contains(&months))
    }),
    ("2008, early before 60", 1_000, |case| {
        months_2008(case).map_or(false, |months| months > 60)
    }),
    ("2008, one month early", 100, |case| {
        months_2008(case) == Some(1)
    }),
    ("2008, months early nought", 100, |case| {
        months_2008(case) == Some(0)
    }),
    ("2008, one month late", 100, |case| {
        months_2008(case) == Some(-1)
    }),
    ("2008, a factor by a short month's last day", 500, |case| {
        in_2008(case) && early(case, 1) && by_last_day(case)
    }),
    ("2008, both factors and both debits", 1_000, |case| {
        in_2008(case) && early(case, 0) && early(case, 1) && debited(case, &[0, 1])
    }),
    ("2008, its debit alone", 1_000, |case| {
        in_2008(case) && debited(case, &[1])
    }),
    ("2008, a debit above nought", 1_000, debit_above_nought),
    ("2008, a debit equal to the pension", 1_000, |case| {
        in_2008(case) && used_up(case)[1]
    }),
    ("2008, a debit equal to the reduced pension", 500, |case| {
        in_2008(case) && early(case, 1) && used_up(case)[1]
    }),
];
