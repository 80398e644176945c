//! Refusals 5 to 11, 27 and 28: the fields of frames.

use super::sheets::{case_in, places_of, refused_at, refused_frame};
use super::{Damaged, BYTE, FOUR, PAIR, PAST_PAY};
use crate::calendar::{month_length, Date};
use crate::cases::{Case, MOST_YEARS};
use crate::frames::{Debit, Factor, Member};
use crate::posts::{Post, MOST_POSTS};
use crate::random::Random;
use crate::samples::accepted::{self, whole_case, whole_case_in};
use crate::samples::writing::{
    debit_frame, factor_frame, frames_of, member_frame, post_frame, year_frame,
};
use crate::LARGEST_PAY;

/// The text of a case whose member is refused.
fn refused_member(random: &mut Random, case: &Case) -> Damaged {
    refused_at(random, &frames_of(case), 0)
}

/// A date whose day is one or more past its month.
fn past_month(random: &mut Random, year: u64) -> Date {
    let month = random.pick(&[2, 2, 4, 6, 9, 11]);
    Date {
        year,
        month,
        day: random.near_ends(month_length(year, month) + 1, 31),
    }
}

pub(super) fn birth_past_month(random: &mut Random) -> Damaged {
    let mut case = whole_case(random);
    let member = case.member.as_mut().expect("a member");
    member.birth = past_month(random, member.birth.year);
    refused_member(random, &case)
}

pub(super) fn retirement_past_month(random: &mut Random) -> Damaged {
    let mut case = whole_case(random);
    let member = case.member.as_mut().expect("a member");
    member.retirement = past_month(random, member.retirement.year);
    refused_member(random, &case)
}

pub(super) fn no_leap_day(random: &mut Random) -> Damaged {
    let mut case = whole_case(random);
    let member = case.member.as_mut().expect("a member");
    let of_birth = random.one_in(2);
    let year = if of_birth {
        random.near_ends(1900, member.retirement.year - 1)
    } else {
        random.near_ends(member.birth.year + 1, 2100)
    };
    if month_length(year, 2) == 29 {
        return no_leap_day(random);
    }
    let date = Date {
        year,
        month: 2,
        day: 29,
    };
    if of_birth {
        member.birth = date;
    } else {
        member.retirement = date;
    }
    refused_member(random, &case)
}

pub(super) fn before_birth_day(random: &mut Random) -> Damaged {
    let mut case = whole_case(random);
    let member = case.member.as_mut().expect("a member");
    member.birth.day = random.near_ends(2, 28);
    member.retirement = member.birth;
    member.retirement.day = random.near_ends(1, member.birth.day - 1);
    refused_member(random, &case)
}

pub(super) fn before_birth_month(random: &mut Random) -> Damaged {
    let mut case = whole_case(random);
    let member = case.member.as_mut().expect("a member");
    let (year, month) = (member.birth.year, random.near_ends(2, 12));
    member.birth = accepted::date_in(random, year, month);
    let earlier = random.near_ends(1, month - 1);
    member.retirement = accepted::date_in(random, year, earlier);
    refused_member(random, &case)
}

pub(super) fn before_birth_year(random: &mut Random) -> Damaged {
    let mut case = whole_case(random);
    let member = case.member.as_mut().expect("a member");
    let year = random.near_ends(1901, 2100);
    let month = random.between(1, 12);
    member.birth = accepted::date_in(random, year, month);
    let earlier = random.near_ends(1900, year - 1);
    let month = random.between(1, 12);
    member.retirement = accepted::date_in(random, earlier, month);
    refused_member(random, &case)
}

pub(super) fn other_age(random: &mut Random, section: u64, number: u64) -> Damaged {
    let mut case = case_in(random, section);
    let member = case.member.as_mut().expect("a member");
    member.section_pension_age = number;
    refused_member(random, &case)
}

pub(super) fn own_age_twice(random: &mut Random) -> Damaged {
    let section = random.below(3);
    let mut case = case_in(random, section);
    let member = case.member.as_mut().expect("a member");
    if member.pension_age == member.section_pension_age {
        return own_age_twice(random);
    }
    member.section_pension_age = member.pension_age;
    refused_member(random, &case)
}

/// A text whose member has another number for the age of the section, and is changed besides.
fn changed_and_age(random: &mut Random, change: fn(&mut Random, &mut Member)) -> Damaged {
    let section = random.below(3);
    let mut case = case_in(random, section);
    let member = case.member.as_mut().expect("a member");
    let other = random.pick(&[0, 60, 65, BYTE]);
    if other == member.section_pension_age {
        return changed_and_age(random, change);
    }
    member.section_pension_age = other;
    change(random, member);
    refused_member(random, &case)
}

pub(super) fn birth_and_age(random: &mut Random) -> Damaged {
    changed_and_age(random, |random, member| {
        member.birth = past_month(random, member.birth.year);
    })
}

pub(super) fn retirement_and_age(random: &mut Random) -> Damaged {
    changed_and_age(random, |random, member| {
        member.retirement = past_month(random, member.retirement.year);
    })
}

pub(super) fn dates_and_age(random: &mut Random) -> Damaged {
    changed_and_age(random, |_, member| {
        member.retirement = Date {
            year: member.birth.year - 1,
            ..member.birth
        };
    })
}

pub(super) fn own_age_and_age(random: &mut Random) -> Damaged {
    changed_and_age(random, |random, member| {
        member.pension_age = random.pick(&[0, 54, 76, BYTE]);
    })
}

pub(super) fn section_and_age(random: &mut Random) -> Damaged {
    changed_and_age(random, |random, member| {
        member.section = random.near_ends(3, BYTE);
    })
}

/// A second 01 is out of order, whatever its fields are.
pub(super) fn second_member_of_other_age(random: &mut Random) -> Damaged {
    let case = whole_case(random);
    let mut member = case.member.expect("a member");
    member.section_pension_age = random.pick(&[0, BYTE]);
    let place = random.place(frames_of(&case).len()) + 1;
    refused_frame(random, &case, place, member_frame(&member))
}

/// The length is tried before the fields.
pub(super) fn earlier_length_of_section_3(random: &mut Random) -> Damaged {
    let mut case = whole_case(random);
    let member = case.member.as_mut().expect("a member");
    member.section = 3;
    let mut frames = frames_of(&case);
    frames[0].pop();
    refused_at(random, &frames, 0)
}

/// A text with an 02 after the years of a case.
fn with_later_year(random: &mut Random, case: &Case, april: u64) -> Damaged {
    let posts: usize = case.years.iter().map(|year| year.posts.len()).sum();
    let place = 1 + case.years.len() + posts;
    let revaluation = random.near_ends(0, 2_000);
    refused_frame(random, case, place, year_frame(april, revaluation))
}

fn last_year(case: &Case) -> u64 {
    case.years.last().expect("a year").april
}

pub(super) fn same_year(random: &mut Random) -> Damaged {
    let case = whole_case(random);
    with_later_year(random, &case, last_year(&case))
}

pub(super) fn year_left_out(random: &mut Random) -> Damaged {
    let case = whole_case(random);
    let last = last_year(&case);
    if last > 2098 {
        return year_left_out(random);
    }
    let april = random.near_ends(last + 2, 2100);
    with_later_year(random, &case, april)
}

pub(super) fn earlier_year(random: &mut Random) -> Damaged {
    let case = whole_case(random);
    let april = random.near_ends(2015, last_year(&case) - 1);
    with_later_year(random, &case, april)
}

pub(super) fn year_2101(random: &mut Random) -> Damaged {
    let mut case = whole_case(random);
    for (year, april) in case.years.iter_mut().rev().zip((2015..=2100).rev()) {
        year.april = april;
    }
    with_later_year(random, &case, 2101)
}

pub(super) fn fifty_first_year(random: &mut Random) -> Damaged {
    let mut case = whole_case(random);
    let first = random.near_ends(2015, 2050);
    let years = case.years.clone();
    case.years = years.iter().cycle().take(MOST_YEARS).cloned().collect();
    for (year, april) in case.years.iter_mut().zip(first..) {
        year.april = april;
        year.posts.truncate(4);
    }
    with_later_year(random, &case, first + MOST_YEARS as u64)
}

/// A text with a post put in after the first post of the first year.
fn with_second_post(random: &mut Random, case: &Case, post: &Post) -> Damaged {
    refused_frame(random, case, 3, post_frame(post))
}

pub(super) fn hours_past_week(random: &mut Random) -> Damaged {
    let case = whole_case(random);
    let whole_time = random.near_ends(0, 10_080);
    let past = random.between(whole_time + 1, PAIR);
    let post = Post {
        contracted: random.pick(&[whole_time + 1, past]),
        whole_time,
        pay: random.near_ends(0, LARGEST_PAY),
        supplement: random.near_ends(0, LARGEST_PAY),
    };
    with_second_post(random, &case, &post)
}

/// A case whose first year has as many posts, the first of them whole-time if asked.
fn case_of_posts(random: &mut Random, count: usize, whole_time: bool) -> Case {
    let mut case = whole_case(random);
    let posts = &mut case.years[0].posts;
    *posts = (0..count)
        .flat_map(|_| accepted::small_posts(random, 1, 3_000, LARGEST_PAY))
        .collect();
    if whole_time {
        posts[0].contracted = posts[0].whole_time;
    }
    case
}

pub(super) fn seventeenth_post(random: &mut Random) -> Damaged {
    let case = case_of_posts(random, MOST_POSTS, false);
    let post = accepted::small_posts(random, 1, 3_000, LARGEST_PAY)[0];
    refused_frame(random, &case, 2 + MOST_POSTS, post_frame(&post))
}

/// A whole-time post.
fn whole_time_post(random: &mut Random) -> Post {
    let minutes = random.near_ends(1, 10_080);
    Post {
        contracted: minutes,
        whole_time: minutes,
        pay: random.near_ends(0, LARGEST_PAY),
        supplement: random.near_ends(0, LARGEST_PAY),
    }
}

/// A text with a second whole-time post, which is spoilt besides.
fn spoilt_whole_time(random: &mut Random, spoil: fn(&mut Post, u64)) -> Damaged {
    let case = case_of_posts(random, 3, true);
    let mut post = whole_time_post(random);
    spoil(&mut post, random.near_ends(PAST_PAY, FOUR));
    with_second_post(random, &case, &post)
}

pub(super) fn seven_before_eight(random: &mut Random) -> Damaged {
    spoilt_whole_time(random, |post, past| post.pay = past)
}

pub(super) fn supplement_before_eight(random: &mut Random) -> Damaged {
    spoilt_whole_time(random, |post, past| post.supplement = past)
}

/// The length is tried before the fields.
pub(super) fn earlier_length_of_no_minutes(random: &mut Random) -> Damaged {
    let case = whole_case(random);
    let mut frame = post_frame(&Post::of(&[0, 2_250, PAST_PAY, 0]));
    frame.truncate(9);
    refused_frame(random, &case, 3, frame)
}

pub(super) fn seventeenth_whole_time(random: &mut Random) -> Damaged {
    let case = case_of_posts(random, MOST_POSTS, true);
    let post = whole_time_post(random);
    refused_frame(random, &case, 2 + MOST_POSTS, post_frame(&post))
}

pub(super) fn second_whole_time(random: &mut Random) -> Damaged {
    let count = random.near_ends(1, MOST_POSTS as u64 - 1) as usize;
    let case = case_of_posts(random, count, true);
    let post = whole_time_post(random);
    let place = random.between(3, 2 + count as u64) as usize;
    refused_frame(random, &case, place, post_frame(&post))
}

pub(super) fn factor_without_section(random: &mut Random) -> Damaged {
    let case = accepted::case_without_section(random);
    let factor = Factor {
        scheme: 1,
        months: random.near_ends(1, 600),
        pension: random.near_ends(0, 1_000),
        lump_sum: random.near_ends(0, 1_000),
    };
    let place = frames_of(&case).len() - case.debits.len();
    refused_frame(random, &case, place, factor_frame(&factor))
}

/// The place of the first factor among the frames of a case.
fn first_factor(case: &Case) -> usize {
    places_of(&frames_of(case), 5)[0]
}

/// A text with a lump factor put into one of the 05s.
fn with_lump_factor(random: &mut Random, case: &Case, place: usize, lump_sum: u64) -> Damaged {
    let mut frames = frames_of(case);
    frames[place][6..].copy_from_slice(&(lump_sum as u16).to_be_bytes());
    refused_at(random, &frames, place)
}

/// A text with a lump factor put into the last 05, which is the section's.
fn with_last_lump_factor(random: &mut Random, section: u64, lump_sum: u64) -> Damaged {
    let case = whole_case_in(random, section);
    let last = first_factor(&case) + case.factors.len() - 1;
    with_lump_factor(random, &case, last, lump_sum)
}

pub(super) fn lump_factor_1995(random: &mut Random) -> Damaged {
    let lump_sum = random.near_ends(1_001, PAIR);
    with_last_lump_factor(random, 1, lump_sum)
}

pub(super) fn lump_factor_2008(random: &mut Random) -> Damaged {
    let lump_sum = random.near_ends(1, 1_000);
    with_last_lump_factor(random, 2, lump_sum)
}

pub(super) fn lump_factor_2015(random: &mut Random) -> Damaged {
    let case = whole_case(random);
    let lump_sum = random.near_ends(1, 1_000);
    with_lump_factor(random, &case, first_factor(&case), lump_sum)
}

pub(super) fn same_months(random: &mut Random) -> Damaged {
    let case = whole_case(random);
    let chosen = random.place(case.factors.len());
    let mut factor = case.factors[chosen];
    factor.pension = random.near_ends(0, 1_000);
    let place = first_factor(&case) + chosen + 1;
    refused_frame(random, &case, place, factor_frame(&factor))
}

pub(super) fn earlier_months(random: &mut Random) -> Damaged {
    let case = whole_case(random);
    let chosen = random.place(case.factors.len());
    let mut factor = case.factors[chosen];
    if factor.months == 1 {
        return earlier_months(random);
    }
    factor.months = random.near_ends(1, factor.months - 1);
    let place = first_factor(&case) + chosen + 1;
    refused_frame(random, &case, place, factor_frame(&factor))
}

pub(super) fn factor_scheme_back(random: &mut Random) -> Damaged {
    let case = whole_case(random);
    let factor = Factor {
        scheme: 0,
        months: random.near_ends(1, 600),
        pension: random.near_ends(0, 1_000),
        lump_sum: 0,
    };
    let place = first_factor(&case) + case.factors.len();
    refused_frame(random, &case, place, factor_frame(&factor))
}

pub(super) fn debit_without_section(random: &mut Random) -> Damaged {
    let case = accepted::case_without_section(random);
    let debit = Debit {
        scheme: 1,
        pot: random.near_ends(0, LARGEST_PAY),
        factor: random.near_ends(1, PAIR),
    };
    let place = frames_of(&case).len();
    refused_frame(random, &case, place, debit_frame(&debit))
}

pub(super) fn same_scheme(random: &mut Random) -> Damaged {
    let case = whole_case(random);
    let chosen = random.place(2);
    let place = frames_of(&case).len() - 1 + chosen;
    let frame = debit_frame(&case.debits[chosen]);
    refused_frame(random, &case, place, frame)
}

pub(super) fn debit_scheme_back(random: &mut Random) -> Damaged {
    let case = whole_case(random);
    let place = frames_of(&case).len();
    let frame = debit_frame(&case.debits[0]);
    refused_frame(random, &case, place, frame)
}
