//! The classes of accepted inputs, read off the inputs themselves.

use second::benefits::FinalPay;
use second::calendar::{completed_by_last_day, dates_of, months_early};
use second::cases::{Case, Year};
use second::frames::Member;
use second::posts::{minutes_together, parts_of, parts_together, Post};
use std::cmp::Ordering;

/// Whether some post of a year without a whole-time post has fewer parts than its own minutes.
pub fn is_cut(posts: &[Post]) -> bool {
    let minutes = minutes_together(posts);
    !posts.iter().any(Post::is_whole_time) && minutes * minutes > parts_together(posts)
}

/// Whether two posts have the same rate, which is not nought.
fn of_equal_rates(one: &Post, other: &Post) -> bool {
    one.pay_in_full() > 0 && one.compare_rates(other) == Ordering::Equal
}

/// Whether two of the posts have the same rate, which is not nought.
fn has_equal_rates(posts: &[Post]) -> bool {
    posts.iter().enumerate().any(|(place, one)| {
        let mut later = posts[place + 1..].iter();
        later.any(|other| of_equal_rates(one, other))
    })
}

/// Whether an earlier and a later post, which pass the test, have other parts for their time.
pub fn cut_decides_between(posts: &[Post], test: impl Fn(&Post, &Post) -> bool) -> bool {
    if !is_cut(posts) {
        return false;
    }
    let parts = parts_of(posts);
    let given = |place: usize| parts[place] * 10_000_000 / posts[place].contracted;
    (0..posts.len()).any(|one| {
        (one + 1..posts.len())
            .any(|other| test(&posts[one], &posts[other]) && given(one) != given(other))
    })
}

/// Whether the parts end within a post that has an equal beside it with other parts for its time.
fn cut_decides_between_equals(posts: &[Post]) -> bool {
    cut_decides_between(posts, of_equal_rates)
}

/// How many posts have the h of this one.
fn sharing(posts: &[Post], one: &Post) -> usize {
    let same = |other: &&Post| other.contracted == one.contracted;
    posts.iter().filter(same).count()
}

/// Whether there are three posts or more, and more than half of them have one h.
fn mostly_of_one_contract(posts: &[Post]) -> bool {
    posts.len() > 2
        && posts
            .iter()
            .any(|one| 2 * sharing(posts, one) > posts.len())
}

/// Whether one post has all its parts and another, which passes the test with it, has not.
fn cut_decides(posts: &[Post], test: fn(&Post, &Post) -> bool) -> bool {
    let minutes = minutes_together(posts);
    let parts = parts_of(posts);
    let (full, cut): (Vec<usize>, Vec<usize>) =
        (0..posts.len()).partition(|&at| parts[at] == posts[at].contracted * minutes);
    let passes = |&one: &usize| cut.iter().any(|&other| test(&posts[one], &posts[other]));
    is_cut(posts) && full.iter().any(passes)
}

/// Whether pays alone decide between two posts.
fn of_one_contract(one: &Post, other: &Post) -> bool {
    let supplemented = one.supplement > 0 || other.supplement > 0;
    one.contracted == other.contracted && !supplemented
}

/// Whether besides most posts having one h, of two with the same h and no supplement one has all its
/// parts and the other not.
fn cut_on_one_contract(posts: &[Post]) -> bool {
    mostly_of_one_contract(posts) && cut_decides(posts, of_one_contract)
}

/// Whether a whole-time post has more parts than all posts together may have otherwise.
fn passes_week(posts: &[Post]) -> bool {
    let minutes = minutes_together(posts);
    let past = |post: &Post| post.contracted * minutes > parts_together(posts);
    posts.iter().any(|post| post.is_whole_time() && past(post))
}

/// A class and the test for it.
pub type Test<Of> = (&'static str, u64, fn(&Of) -> bool);

/// The classes of accepted lists of posts.
pub const POSTS_CLASSES: &[Test<Vec<Post>>] = &[
    ("no post", 500, |posts| posts.is_empty()),
    ("one post", 500, |posts| posts.len() == 1),
    ("sixteen posts", 500, |posts| posts.len() == 16),
    ("a post cut", 2_000, |posts| is_cut(posts)),
    ("no post cut", 2_000, |posts| !is_cut(posts)),
    ("a post with no part", 1_000, |posts| {
        parts_of(posts).contains(&0)
    }),
    ("equal rates", 2_000, |posts| has_equal_rates(posts)),
    ("equal rates of which one is cut", 1_000, |posts| {
        cut_decides_between_equals(posts)
    }),
    ("most posts of one h", 2_000, |posts| {
        mostly_of_one_contract(posts)
    }),
    (
        "most posts of one h, of two alike one cut",
        1_000,
        |posts| cut_on_one_contract(posts),
    ),
    ("equal pays on one h of which one is cut", 500, |posts| {
        cut_decides(posts, |one, other| {
            of_one_contract(one, other) && one.pay == other.pay
        })
    }),
    ("a higher pay of another h cut", 1_000, |posts| {
        cut_decides(posts, |one, other| one.pay < other.pay)
    }),
    ("a whole-time post", 2_000, |posts| {
        posts.iter().any(Post::is_whole_time)
    }),
    ("a whole-time post past the weighted week", 1_000, |posts| {
        passes_week(posts)
    }),
];

fn cut_years(case: &Case) -> usize {
    let cut = |year: &&Year| is_cut(&year.posts);
    case.years.iter().filter(cut).count()
}

pub fn any_year(case: &Case, test: fn(&[Post]) -> bool) -> bool {
    case.years.iter().any(|year| test(&year.posts))
}

pub fn early(case: &Case, scheme: u64) -> bool {
    case.months_early(scheme).map_or(false, |months| months > 0)
}

/// Whether retirement is on the last day of a month too short for the birth day.
pub fn by_last_day(case: &Case) -> bool {
    let completed = |member: Member| completed_by_last_day(member.birth, member.retirement);
    case.member.map_or(false, completed)
}

/// Whether there are just these debits, 2015 first.
pub fn debited(case: &Case, schemes: &[u64]) -> bool {
    let had: Vec<u64> = case.debits.iter().map(|debit| debit.scheme).collect();
    had == schemes
}

/// Whether just these of the years 3 to 1 have the highest of their pays.
fn highest_in(case: &Case, years: &[usize]) -> bool {
    case.final_pay.map_or(false, |given| {
        let highest = given.pay(given.final_year());
        (1..=3).all(|year| (given.pay(year) == highest) == years.contains(&year))
    })
}

fn controls(case: &Case, controls: u64) -> bool {
    case.final_pay
        .map_or(false, |given| given.controls == controls)
}

/// Which debits take all of an amount that is not nought: 2015 pension, the section's, lump sum.
pub fn used_up(case: &Case) -> [bool; 3] {
    let had = case.reduced_benefits().expect("an accepted case");
    let debits = case.benefit_debits();
    [
        had.pension_2015 > 0 && had.pension_2015 == debits.pension_2015,
        had.pension_1995 > 0 && had.pension_1995 == debits.pension_1995,
        had.lump_sum > 0 && had.lump_sum == debits.lump_sum,
    ]
}

fn half_in_1995_pension(case: &Case) -> bool {
    case.final_pay.map_or(false, |given| {
        given.pay(given.final_year()) * given.days % 29_200 == 14_600
    })
}

fn half_in_accrual(case: &Case) -> bool {
    let half = |year: &Year| second::posts::aggregate(&year.posts).number % 54 == 27;
    case.years.iter().any(half)
}

fn half_in_debit(case: &Case) -> bool {
    case.debits
        .iter()
        .any(|debit| 2 * (debit.pot * 100 % debit.factor) == debit.factor)
}

fn half_in_lump_sum(case: &Case) -> bool {
    let Ok(Some(factor)) = case.factor(1) else {
        return false;
    };
    case.final_pay.map_or(false, |given| {
        3 * given.pension(given.final_year()).number * factor.lump_sum % 1_000 == 500
    })
}

fn charge_above_nought(case: &Case) -> bool {
    case.final_pay.map_or(false, |given| given.charge() > 0)
}

/// A factor of scheme 1 right after one of scheme 0 with more months.
fn months_start_again(case: &Case) -> bool {
    case.factors
        .windows(2)
        .any(|pair| pair[0].scheme < pair[1].scheme && pair[1].months < pair[0].months)
}

fn in_1995(case: &Case) -> bool {
    case.final_pay.is_some()
}

/// The classes of accepted cases, but for those of the 2008 Section alone.
pub const CASE_CLASSES: &[Test<Case>] = &[
    ("no year", 500, |case| case.years.is_empty()),
    ("fifty years", 200, |case| case.years.len() == 50),
    ("several years of which exactly one is cut", 1_000, |case| {
        case.years.len() > 1 && cut_years(case) == 1
    }),
    ("several years of which more are cut", 1_000, |case| {
        case.years.len() > 1 && cut_years(case) > 1
    }),
    ("equal rates", 1_000, |case| any_year(case, has_equal_rates)),
    ("equal rates of which one is cut", 1_000, |case| {
        any_year(case, cut_decides_between_equals)
    }),
    ("a year with most posts of one h", 1_000, |case| {
        any_year(case, mostly_of_one_contract)
    }),
    (
        "a year with most posts of one h, of two alike one cut",
        1_000,
        |case| any_year(case, cut_on_one_contract),
    ),
    ("a whole-time post past the weighted week", 1_000, |case| {
        any_year(case, passes_week)
    }),
    ("a later year without posts", 1_000, |case| {
        case.years.iter().skip(1).any(|year| year.posts.is_empty())
    }),
    ("no section", 1_000, |case| case.section() == 0),
    ("the 1995 Section", 20_000, in_1995),
    (
        "the 1995 Section with both factors and both debits",
        1_000,
        |case| in_1995(case) && early(case, 0) && early(case, 1) && debited(case, &[0, 1]),
    ),
    ("early in the 2015 Scheme alone", 1_000, |case| {
        in_1995(case) && early(case, 0) && !early(case, 1)
    }),
    ("early in the 1995 Section alone", 200, |case| {
        in_1995(case) && !early(case, 0) && early(case, 1)
    }),
    ("months early nought", 500, |case| {
        case.months_early(0) == Some(0)
    }),
    ("one month early", 200, |case| {
        case.months_early(0) == Some(1)
    }),
    ("600 months early", 50, |case| {
        case.months_early(0) == Some(600)
    }),
    ("one month late", 200, |case| {
        case.months_early(0) == Some(-1)
    }),
    ("a 2015 factor by a short month's last day", 1_000, |case| {
        early(case, 0) && by_last_day(case)
    }),
    ("a 1995 factor by a short month's last day", 1_000, |case| {
        in_1995(case) && early(case, 1) && by_last_day(case)
    }),
    (
        "months early nought by a short month's last day",
        20,
        |case| case.months_early(0) == Some(0) && by_last_day(case),
    ),
    (
        "factors whose months start again with scheme 1",
        1_000,
        |case| months_start_again(case),
    ),
    ("a 2015 debit alone", 1_000, |case| debited(case, &[0])),
    ("a 1995 debit alone", 1_000, |case| {
        in_1995(case) && debited(case, &[1])
    }),
    ("final pay of year 3", 1_000, |case| highest_in(case, &[3])),
    ("final pay of year 2", 1_000, |case| highest_in(case, &[2])),
    ("final pay of year 1", 1_000, |case| highest_in(case, &[1])),
    ("final pay of years 3 and 2", 1_000, |case| {
        highest_in(case, &[3, 2])
    }),
    ("final pay of years 3 and 1", 1_000, |case| {
        highest_in(case, &[3, 1])
    }),
    ("final pay of years 2 and 1", 1_000, |case| {
        highest_in(case, &[2, 1])
    }),
    ("final pay of all three years", 1_000, |case| {
        highest_in(case, &[3, 2, 1])
    }),
    ("controls 0", 1_000, |case| controls(case, 0)),
    ("controls 1", 1_000, |case| controls(case, 1)),
    ("controls 2", 1_000, |case| controls(case, 2)),
    ("controls 3", 1_000, |case| controls(case, 3)),
    ("controls 4", 1_000, |case| controls(case, 4)),
    ("controls 5", 1_000, |case| controls(case, 5)),
    ("controls 6", 1_000, |case| controls(case, 6)),
    ("controls 7", 1_000, |case| controls(case, 7)),
    ("a charge above nought", 1_000, charge_above_nought),
    ("a debit equal to the 2015 pension", 1_000, |case| {
        used_up(case)[0]
    }),
    ("a debit equal to the 1995 pension", 1_000, |case| {
        in_1995(case) && used_up(case)[1]
    }),
    ("a debit equal to the lump sum", 1_000, |case| {
        used_up(case)[2]
    }),
    (
        "a debit equal to the 1995 pension, not to the lump sum",
        1_000,
        |case| in_1995(case) && used_up(case)[1] && !used_up(case)[2],
    ),
    (
        "a debit equal to the lump sum, not to the 1995 pension",
        1_000,
        |case| used_up(case)[2] && !used_up(case)[1],
    ),
    ("a half in an accrual", 500, half_in_accrual),
    ("a half in the 1995 pension", 500, half_in_1995_pension),
    ("a half in the reduced lump sum", 500, half_in_lump_sum),
    ("a half in a debit", 500, half_in_debit),
];

/// Whether there is a charge on the final pay of the year.
fn charged(call: &[u64; 10], year: usize) -> bool {
    let given = FinalPay::of(call);
    given.final_year() == year && given.charge() > 0
}

/// Whether an earlier year of the same pay would give another charge.
fn tie_decides_charge(call: &[u64; 10]) -> bool {
    let given = FinalPay::of(call);
    let year = given.final_year();
    (year + 1..=3).any(|earlier| {
        given.pay(earlier) == given.pay(year) && given.charge_for(earlier) != given.charge()
    })
}

/// The classes of accepted charges.
pub const CHARGE_CLASSES: &[Test<[u64; 10]>] = &[
    ("a charge for year 3", 500, |call| charged(call, 3)),
    ("a charge for year 2", 500, |call| charged(call, 2)),
    ("a charge for year 1", 500, |call| charged(call, 1)),
    ("controls 1 to 6 with a charge", 1_000, |call| {
        (1..7).contains(&call[7]) && FinalPay::of(call).charge() > 0
    }),
    ("controls 7 with a charge", 500, |call| {
        call[7] == 7 && FinalPay::of(call).charge() > 0
    }),
    ("no charge", 1_000, |call| FinalPay::of(call).charge() == 0),
    ("equal pays that decide the charge", 500, tie_decides_charge),
    ("year 4 highest", 500, |call| {
        call[1..4].iter().all(|&pay| pay < call[0])
    }),
];

/// The classes of accepted dates.
pub const DATES_CLASSES: &[Test<[u64; 7]>] = &[
    ("early", 1_000, |call| months(call) > 0),
    ("neither early nor late", 200, |call| months(call) == 0),
    ("late", 1_000, |call| months(call) < 0),
    ("a day number below that of birth", 1_000, |call| {
        call[5] < call[2]
    }),
    ("retirement on the day of birth", 20, |call| {
        call[..3] == call[3..6]
    }),
    ("a leap day", 500, |call| {
        call[1..3] == [2, 29] || call[4..6] == [2, 29]
    }),
    ("the last day of a month too short", 2_000, ends_short_month),
    ("another day of a month too short", 2_000, |call| {
        let (birth, retirement) = dates_of(call);
        retirement.lacks_day_of(birth) && !retirement.ends_month()
    }),
    ("28 February of a month too short", 500, |call| {
        call[4..6] == [2, 28] && ends_short_month(call)
    }),
    ("29 February of a month too short", 200, |call| {
        call[4..6] == [2, 29] && ends_short_month(call)
    }),
    ("28 February of a leap year, born on a 29th", 20, |call| {
        call[2] == 29 && call[4..6] == [2, 28] && !dates_of(call).1.ends_month()
    }),
    ("born on 29 February, out on 28 February", 50, |call| {
        call[1..3] == [2, 29] && call[4..6] == [2, 28]
    }),
    (
        "a last day of a month that has the birth day",
        1_000,
        |call| {
            let (birth, retirement) = dates_of(call);
            retirement.ends_month() && !retirement.lacks_day_of(birth)
        },
    ),
];

fn ends_short_month(call: &[u64; 7]) -> bool {
    let (birth, retirement) = dates_of(call);
    completed_by_last_day(birth, retirement)
}

fn months(call: &[u64; 7]) -> i64 {
    months_early(call).1
}

/// The classes of accepted abatements.
pub const ABATEMENT_CLASSES: &[Test<[u64; 4]>] = &[
    ("nothing abated", 1_000, |call| abated(call) == 0),
    ("part of the enhancement abated", 1_000, |call| {
        abated(call) > 0 && abated(call) < call[0] - call[1]
    }),
    ("all of the enhancement abated", 1_000, |call| {
        abated(call) > 0 && abated(call) == call[0] - call[1]
    }),
];

fn abated(call: &[u64; 4]) -> u64 {
    second::abatement(call).1
}
