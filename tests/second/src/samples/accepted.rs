//! Cases that are accepted, with rare but telling shapes made common.

use crate::benefits::{pension_debit, FinalPay};
use crate::calendar::{month_length, months_before, Date, SECTION_PENSION_AGES};
use crate::cases::{Benefits, Case, Year, MOST_YEARS};
use crate::frames::{Debit, Factor, Member, LARGEST_TEXT};
use crate::posts::{Post, MOST_POSTS};
use crate::random::Random;
use crate::samples::supplements::{telling_posts, with_supplements};
use crate::samples::ten_pays::ten_pays;
use crate::wide::rounded;
use crate::LARGEST_PAY;

/// The latest month early that has a factor.
pub const LAST_MONTH: i64 = 600;

/// A post that is not whole-time, of common weeks and pays or of any.
fn part_time_post(random: &mut Random) -> Post {
    let any = random.between(2, 10_080);
    let whole_time = random.pick(&[2_250, 2_250, 2_400, 2_100, any]);
    let half = whole_time / 2;
    let fewer = random.between(1, half);
    let any = random.between(1, whole_time - 1);
    Post {
        contracted: random.pick(&[fewer, fewer, any, whole_time - 1]),
        whole_time,
        pay: random.of_any_size(LARGEST_PAY),
        supplement: 0,
    }
}

/// Posts of one rate, some a penny beside it.
fn posts_of_near_rates(random: &mut Random) -> Vec<Post> {
    let minutes = random.between(1, 60);
    let pay = random.between(1, 5_000);
    let beside = random.one_in(3);
    let count = random.between(2, 6);
    (0..count)
        .map(|_| {
            let times = random.between(1, 30);
            let contracted = minutes * times;
            let spare = random.between(1, 600);
            let aside = if beside { random.below(3) } else { 1 };
            Post {
                contracted,
                whole_time: contracted + spare,
                pay: pay * times + aside - 1,
                supplement: 0,
            }
        })
        .collect()
}

/// Posts most of which have one h, the others one near it or twice it. Most pays are near one rate,
/// so that on equal h they are equal or a penny or two apart.
fn posts_of_one_contract(random: &mut Random) -> Vec<Post> {
    let any = random.between(2, 3_000);
    let shared = random.pick(&[1_200, 1_500, 10_078, any]);
    let pay = random.of_any_size(LARGEST_PAY / 4);
    let count = random.between(3, MOST_POSTS as u64);
    (0..count)
        .map(|_| {
            let twice = (2 * shared).min(10_079);
            let other = random.pick(&[shared - 1, shared + 1, twice]);
            let contracted = random.pick(&[shared, shared, shared, other]);
            let spare = random.between(1, 600);
            let any = random.of_any_size(LARGEST_PAY);
            let near = pay * contracted / shared + random.below(3);
            Post {
                contracted,
                whole_time: (contracted + spare).min(10_080),
                pay: random.pick(&[near, near, near, any]),
                supplement: 0,
            }
        })
        .collect()
}

/// Posts of few minutes and pence, where halves are common.
pub fn small_posts(random: &mut Random, most: u64, most_minutes: u64, most_pay: u64) -> Vec<Post> {
    let count = random.between(1, most);
    (0..count)
        .map(|_| {
            let contracted = random.between(1, most_minutes);
            Post {
                contracted,
                whole_time: contracted + random.between(1, 3),
                pay: random.between(0, most_pay),
                supplement: 0,
            }
        })
        .collect()
}

/// Posts at the ends of their fields.
fn posts_at_ends(random: &mut Random) -> Vec<Post> {
    let count = random.pick(&[1, 2, 3, MOST_POSTS as u64]);
    (0..count)
        .map(|_| {
            let whole_time = random.pick(&[2, 3, 10_079, 10_080]);
            Post {
                contracted: random.pick(&[1, whole_time - 1]),
                whole_time,
                pay: random.pick(&[0, 1, LARGEST_PAY - 1, LARGEST_PAY]),
                supplement: 0,
            }
        })
        .collect()
}

/// Makes one post whole-time; often its week is longer than those of the others.
fn with_whole_time_post(random: &mut Random, mut posts: Vec<Post>) -> Vec<Post> {
    let place = random.place(posts.len());
    let longest = posts.iter().map(|post| post.whole_time).max().unwrap_or(1);
    let any = random.between(1, 10_080);
    let whole_time = random.pick(&[any, longest, (longest + 150).min(10_080)]);
    posts[place].contracted = whole_time;
    posts[place].whole_time = whole_time;
    posts
}

/// Posts without supplements, none of them whole-time.
fn plain_posts(random: &mut Random) -> Vec<Post> {
    match random.below(13) {
        0..=3 => {
            let count = random.between(1, 4);
            (0..count).map(|_| part_time_post(random)).collect()
        }
        4..=6 => posts_of_near_rates(random),
        7..=8 => small_posts(random, 4, 6, 400),
        9 => posts_at_ends(random),
        10..=11 => posts_of_one_contract(random),
        _ => {
            let count = random.between(8, MOST_POSTS as u64);
            (0..count).map(|_| part_time_post(random)).collect()
        }
    }
}

/// The posts of a year.
pub fn post_list(random: &mut Random) -> Vec<Post> {
    let posts = match random.below(16) {
        0 => return Vec::new(),
        1..=3 => telling_posts(random),
        _ => {
            let posts = plain_posts(random);
            with_supplements(random, posts, LARGEST_PAY)
        }
    };
    if random.one_in(6) {
        with_whole_time_post(random, posts)
    } else {
        posts
    }
}

/// Years that follow one another.
fn years(random: &mut Random, count: u64) -> Vec<Year> {
    let first = random.near_ends(2015, 2101 - count.max(1));
    (first..first + count)
        .map(|april| Year {
            april,
            revaluation: random.near_ends(0, 2_000),
            posts: post_list(random),
        })
        .collect()
}

/// Pays, allowances and the rest of an 04; equal pays and rises near the allowed ones are common.
pub fn final_pay(random: &mut Random) -> FinalPay {
    let top = random.of_any_size(LARGEST_PAY);
    let allowance = random.between(0, 1_000);
    let mut pays = [0; 4].map(|_| random.between(0, top));
    let mut allowances = [0; 3].map(|_| random.near_ends(0, 1_000));
    match random.below(4) {
        0 => {
            // Two or three of the years 3 to 1 share the highest pay.
            let highest = *pays.iter().max().expect("four pays");
            let other = random.between(1, 3) as usize;
            for (place, pay) in pays.iter_mut().enumerate().skip(1) {
                if place != other || random.one_in(3) {
                    *pay = highest;
                }
            }
        }
        1 => {
            // Each year rises by about what is allowed.
            allowances = [allowance; 3];
            pays[0] = top / 8;
            for place in 1..4 {
                let risen = rounded((pays[place - 1] * (1_000 + allowance)).into(), 1_000);
                pays[place] = (risen + random.below(3)).saturating_sub(1).min(LARGEST_PAY);
            }
        }
        _ => {}
    }
    let days = random.near_ends(0, 16_425);
    let factor = random.near_ends(1, 10_000);
    FinalPay {
        pays,
        allowances,
        controls: random.below(8),
        days: random.pick(&[days, days, 7_300, 14_600]),
        factor: random.pick(&[factor, 2_020]),
    }
}

/// A date of the calendar in a month; the month's first and last days are common.
pub fn date_in(random: &mut Random, year: u64, month: u64) -> Date {
    Date {
        year,
        month,
        day: random.near_ends(1, month_length(year, month)),
    }
}

/// One of the last four days of a month, the last of all most often.
pub fn end_of(random: &mut Random, year: u64, month: u64) -> Date {
    let left = random.pick(&[0, 0, 0, 1, 1, 2, 3]);
    Date {
        year,
        month,
        day: month_length(year, month) - left,
    }
}

/// A birth and a retirement so many months later, both on last days of a month or near them, the
/// retirement in a month of fewer than 31 days. A birth in February is in a year whose number is a
/// multiple of 4.
pub fn dates_at_ends(random: &mut Random, year: u64, months: u64) -> (Date, Date) {
    let short = random.pick(&[2, 2, 2, 4, 6, 9, 11]);
    let month = (short + 11 - months % 12) % 12 + 1;
    let year = if month == 2 { year / 4 * 4 } else { year };
    let reached = year * 12 + month - 1 + months;
    let birth = end_of(random, year, month);
    (birth, end_of(random, reached / 12, reached % 12 + 1))
}

/// A birth in the year and a retirement so many months later, in any months.
fn dates_in_months(random: &mut Random, year: u64, months: u64) -> (Date, Date) {
    let month = random.between(1, 12);
    let reached = year * 12 + month - 1 + months;
    let birth = date_in(random, year, month);
    (birth, date_in(random, reached / 12, reached % 12 + 1))
}

/// The months of age at retirement for which dates are drawn: round a pension age, in the five years
/// before that of the section, or any.
fn age_months(random: &mut Random, pension_age: u64, section_age: u64) -> u64 {
    if random.one_in(12) {
        return 12 * pension_age - LAST_MONTH as u64;
    }
    let round = 12 * random.pick(&[pension_age, section_age]) + random.below(4) - 2;
    let early = 12 * pension_age - random.between(1, 300);
    let both_early = random.between(500, 700);
    let near_section = 12 * section_age - random.between(1, 60);
    let any = random.between(0, 1_100);
    random.pick(&[round, early, both_early, both_early, near_section, any])
}

/// A member whose factors, if any are needed, can be in a case.
pub fn member(random: &mut Random, section: u64) -> Member {
    let section_pension_age = SECTION_PENSION_AGES[section as usize];
    // Without a section dates are drawn as in the 1995.
    let section_age = match section {
        0 => SECTION_PENSION_AGES[1],
        _ => section_pension_age,
    };
    loop {
        let pension_age = random.near_ends(55, 75);
        let months = age_months(random, pension_age, section_age);
        let birth_year = random.near_ends(1900, 2099 - months / 12);
        let (birth, retirement) = if random.one_in(4) {
            dates_at_ends(random, birth_year, months)
        } else {
            dates_in_months(random, birth_year, months)
        };
        let member = Member {
            birth,
            retirement,
            section,
            pension_age,
            section_pension_age,
        };
        let exists = retirement.exists();
        let in_order = (birth.month, birth.day) <= (retirement.month, retirement.day)
            || birth.year < retirement.year;
        let later_age = pension_age.max(section_age);
        if exists && in_order && months_before(birth, retirement, later_age) <= LAST_MONTH {
            return member;
        }
    }
}

/// A factor in thousandths.
fn thousandths(random: &mut Random) -> u64 {
    let any = random.near_ends(0, 1_000);
    let common = random.between(400, 999);
    random.pick(&[any, common, common, 500])
}

/// A lump factor of the scheme: 0 where there is no lump sum.
fn lump_factor(random: &mut Random, case: &Case, scheme: u64) -> u64 {
    if scheme == 1 && case.has_lump_sum() {
        thousandths(random)
    } else {
        0
    }
}

/// The 05s that a case needs, with others among them.
fn factors(random: &mut Random, case: &Case, others: u64) -> Vec<Factor> {
    let mut list = Vec::new();
    for scheme in 0..2 {
        let Some(early) = case.months_early(scheme) else {
            continue;
        };
        let mut months: Vec<u64> = Vec::new();
        let count = random.between(0, others);
        months.extend((0..count).map(|_| random.near_ends(1, LAST_MONTH as u64)));
        if random.one_in(2) {
            months.extend([early - 1, early + 1].map(|beside| beside.clamp(1, LAST_MONTH) as u64));
        }
        if early > 0 {
            months.push(early as u64);
        }
        months.sort();
        months.dedup();
        list.extend(months.into_iter().map(|months| Factor {
            scheme,
            months,
            pension: thousandths(random),
            lump_sum: lump_factor(random, case, scheme),
        }));
    }
    list
}

/// A pot and a factor that give the debit, where one is found.
pub fn debit_of(random: &mut Random, scheme: u64, amount: u64) -> Option<Debit> {
    let any = random.between(100, 5_000);
    for factor in [any, 200, 100, 50, 25, 20, 10, 5, 4, 2, 1] {
        let pot = rounded(u128::from(amount) * u128::from(factor), 100);
        if pot <= LARGEST_PAY && pension_debit(pot, factor).number == amount {
            return Some(Debit {
                scheme,
                pot,
                factor,
            });
        }
    }
    None
}

/// A debit of at most the amount: half of them all of it.
fn debit_within(random: &mut Random, scheme: u64, amount: u64) -> Option<Debit> {
    if random.one_in(2) {
        return debit_of(random, scheme, amount);
    }
    let pot = random.of_any_size(LARGEST_PAY);
    let factor = random.pick(&[1_000, 2_020, 200, 65_535, 8]);
    let factor = if random.one_in(2) {
        random.near_ends(1, 65_535)
    } else {
        factor
    };
    if pension_debit(pot, factor).number <= amount {
        return Some(Debit {
            scheme,
            pot,
            factor,
        });
    }
    let less = random.between(0, amount);
    debit_of(random, scheme, less)
}

/// The most that the pension debit of a section can be.
pub(super) fn most_section_debit(case: &Case, had: &Benefits) -> u64 {
    if case.has_lump_sum() {
        had.pension_1995.min(had.lump_sum / 3)
    } else {
        had.pension_1995
    }
}

/// Tries lump sum factors until the whole lump sum can go to the debit before the pension does.
fn with_lump_sum_in_thirds(random: &mut Random, case: &mut Case) -> Option<()> {
    case.final_pay?;
    let months = case.months_early(1).filter(|&months| months > 0)? as u64;
    let place = case
        .factors
        .iter()
        .position(|factor| (factor.scheme, factor.months) == (1, months))?;
    for _ in 0..12 {
        let factor = &mut case.factors[place];
        factor.lump_sum = factor.pension.saturating_sub(random.between(0, 60));
        let had = case.reduced_benefits().ok()?;
        if had.lump_sum % 3 == 0 && had.lump_sum / 3 <= had.pension_1995 {
            return Some(());
        }
    }
    None
}

/// The 06s of a case, within what it has.
fn debits(random: &mut Random, case: &Case) -> Vec<Debit> {
    let had = case.reduced_benefits().expect("a case with its factors");
    let mut list = Vec::new();
    if random.below(3) != 0 {
        list.extend(debit_within(random, 0, had.pension_2015));
    }
    if case.section() != 0 && random.below(3) != 0 {
        list.extend(debit_within(random, 1, most_section_debit(case, &had)));
    }
    list
}

/// A case of the years, in a section or without; it is accepted.
fn case_of_years(random: &mut Random, section: u64, years: Vec<Year>) -> Case {
    let mut case = Case {
        member: Some(member(random, section)),
        years,
        ..Case::default()
    };
    match section {
        1 => case.final_pay = Some(final_pay(random)),
        2 => case.ten_pays = Some(ten_pays(random)),
        _ => {}
    }
    case.factors = factors(random, &case, 3);
    if random.one_in(3) {
        // Where no such factor is found the last one tried stays.
        let _ = with_lump_sum_in_thirds(random, &mut case);
    }
    case.debits = debits(random, &case);
    case
}

/// A case of as many years, in a section or without; it is accepted.
fn case_with(random: &mut Random, section: u64, years_count: u64) -> Case {
    let years = years(random, years_count);
    case_of_years(random, section, years)
}

/// An accepted case with so few minutes that every division of its parts can be tried.
pub fn small_case(random: &mut Random) -> Case {
    let section = random.below(3);
    let years_count = random.between(1, 3);
    let mut years = years(random, years_count);
    let most_pay = random.pick(&[60, 400, 1_500]);
    for year in &mut years {
        let (most, minutes) = random.pick(&[(2, 6), (3, 3), (3, 4), (4, 2)]);
        let posts = small_posts(random, most, minutes, most_pay);
        year.posts = with_supplements(random, posts, most_pay);
        if random.one_in(8) {
            let place = random.place(year.posts.len());
            year.posts[place].contracted = year.posts[place].whole_time;
        }
    }
    case_of_years(random, section, years)
}

/// Any accepted case: a third without a section, a third in each section.
pub fn case(random: &mut Random) -> Case {
    let section = random.below(3);
    let years_count = match random.below(40) {
        0 => 0,
        1 => random.near_ends(5, MOST_YEARS as u64),
        _ => random.between(1, 4),
    };
    case_with(random, section, years_count)
}

/// An accepted case without a section, of two years or more.
pub fn case_without_section(random: &mut Random) -> Case {
    let years_count = random.between(2, 4);
    case_with(random, 0, years_count)
}

/// An accepted case in either section with every kind of frame that may stand there: years with
/// posts, the section's pays, both factors, both debits.
pub fn whole_case(random: &mut Random) -> Case {
    let section = random.between(1, 2);
    whole_case_in(random, section)
}

/// The same in a given section.
pub fn whole_case_in(random: &mut Random, section: u64) -> Case {
    loop {
        let years_count = random.between(2, 4);
        let case = case_with(random, section, years_count);
        let early = |scheme| case.months_early(scheme).map_or(false, |months| months > 0);
        let posts = case.years.iter().all(|year| !year.posts.is_empty());
        if early(0) && early(1) && case.debits.len() == 2 && posts {
            return case;
        }
    }
}

/// An accepted case of the most years, whose text is as large as a text may be.
pub fn largest_case(random: &mut Random) -> Case {
    let section = random.between(1, 2);
    loop {
        let mut case = case_with(random, section, MOST_YEARS as u64);
        for year in &mut case.years {
            year.posts = one_small_post(random);
        }
        case.debits.clear();
        fill_posts(random, &mut case);
        if fill_factors(random, &mut case).is_some() {
            return case;
        }
    }
}

/// One post of few minutes and pence, at times with a supplement.
fn one_small_post(random: &mut Random) -> Vec<Post> {
    let posts = small_posts(random, 1, 40, 9_000);
    with_supplements(random, posts, 9_000)
}

/// The bytes of a post's line, and of a factor's, each with its 0A.
const POST_LINE: usize = 27;
const FACTOR_LINE: usize = 17;

/// The bytes of all lines but factors of a case of the most years, with so many posts.
fn other_lines(case: &Case, posts: usize) -> usize {
    let pays_line = if case.ten_pays.is_some() { 87 } else { 57 };
    25 + 11 * MOST_YEARS + pays_line + POST_LINE * posts
}

/// Adds posts until the rest of the largest text can be filled with factors.
fn fill_posts(random: &mut Random, case: &mut Case) {
    let least = random.between(450, 780);
    for count in MOST_YEARS as u64.. {
        let year = &mut case.years[count as usize % MOST_YEARS];
        year.posts.extend(one_small_post(random));
        let other = other_lines(case, count as usize + 1);
        if count >= least && (LARGEST_TEXT - other) % FACTOR_LINE == 0 {
            return;
        }
    }
}

/// Adds factors to a case until its text has the largest size.
fn fill_factors(random: &mut Random, case: &mut Case) -> Option<()> {
    let posts: usize = case.years.iter().map(|year| year.posts.len()).sum();
    let count = (LARGEST_TEXT - other_lines(case, posts)) / FACTOR_LINE;
    let mut chances: Vec<(u64, u64)> = (0..2)
        .flat_map(|scheme| (1..=LAST_MONTH as u64).map(move |months| (scheme, months)))
        .filter(|wanted| {
            let had = |factor: &Factor| (factor.scheme, factor.months) == *wanted;
            !case.factors.iter().any(had)
        })
        .collect();
    random.shuffle(&mut chances);
    let more = count.checked_sub(case.factors.len())?;
    for (scheme, months) in chances.get(..more)? {
        case.factors.push(Factor {
            scheme: *scheme,
            months: *months,
            pension: random.between(0, 1_000),
            lump_sum: lump_factor(random, case, *scheme),
        });
    }
    case.factors
        .sort_by_key(|factor| (factor.scheme, factor.months));
    Some(())
}
