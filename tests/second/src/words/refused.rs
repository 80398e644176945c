//! Lines of a case that the rules refuse: an accepted case changed in one place.

use super::names::named;
use super::{section_of, text_of_lines, Line};
use crate::calendar::Date;
use crate::frames::{Frame, Member};
use crate::posts::{Post, MOST_POSTS};
use crate::random::Random;
use crate::samples::accepted::{case, final_pay, largest_case, whole_case, whole_case_in};
use crate::samples::ten_pays::ten_pays;
use crate::LARGEST_PAY;
use std::mem::discriminant;

/// The largest debit factor that a frame can say.
pub const LARGEST_DEBIT_FACTOR: u64 = 0xFFFF;

/// A number past a limit, by one or by far.
fn past(random: &mut Random, limit: u64) -> u64 {
    let far = limit + 1 + random.below(1_000_000);
    random
        .pick(&[limit + 1, limit + 1, far, 1 << 16, 1 << 32, u64::MAX])
        .max(limit + 1)
}

fn past_pay(random: &mut Random) -> u64 {
    past(random, LARGEST_PAY)
}

fn other_date(random: &mut Random, date: &mut Date) {
    match random.below(4) {
        0 => date.year = random.pick(&[0, 1899, 2101, 9999]),
        1 => date.month = random.pick(&[0, 13, 99]),
        2 => date.day = random.pick(&[0, 32, 99]),
        _ => (date.month, date.day) = random.pick(&[(2, 30), (4, 31), (11, 31)]),
    }
}

fn other_member(random: &mut Random, member: &mut Member) {
    match random.below(4) {
        0 => other_date(random, &mut member.birth),
        1 => other_date(random, &mut member.retirement),
        2 => (member.birth, member.retirement) = (member.retirement, member.birth),
        _ => member.pension_age = random.pick(&[0, 54, 76, 255, 256, u64::MAX]),
    }
}

fn other_post(random: &mut Random, post: &mut Post) {
    match random.below(6) {
        0 => post.contracted = 0,
        1 => post.contracted = post.whole_time + random.pick(&[1, 1, 30, 70_000]),
        2 => post.whole_time = random.pick(&[10_081, 65_535, 65_536, 1 << 40]),
        3 => post.pay = past_pay(random),
        4 => post.supplement = past_pay(random),
        _ => post.contracted = post.whole_time,
    }
}

/// Changes a number of a frame, in most cases to one past its limit.
fn other_number(random: &mut Random, frame: &mut Frame, section: u64) {
    match frame {
        Frame::Member(member) => other_member(random, member),
        Frame::Year { april, revaluation } => match random.below(3) {
            0 => *april = random.pick(&[2014, 2101, 9999]),
            1 => *april += random.pick(&[1, 2, 10]),
            _ => *revaluation = past(random, 2_000),
        },
        Frame::Post(post) => other_post(random, post),
        Frame::FinalPay(given) => match random.below(5) {
            0 => given.pays[random.place(4)] = past_pay(random),
            1 => given.allowances[random.place(3)] = past(random, 1_000),
            2 => given.days = past(random, 16_425),
            3 => given.factor = 0,
            _ => given.factor = past(random, 10_000),
        },
        Frame::TenPays(given) => match random.below(3) {
            0 => given.days = past(random, 16_425),
            _ => given.pays[random.place(10)] = past_pay(random),
        },
        Frame::Factor(factor) => match random.below(5) {
            0 => factor.months = 0,
            1 => factor.months = past(random, 600),
            2 => factor.pension = past(random, 1_000),
            3 if factor.scheme == 1 && section == 1 => factor.lump_sum = past(random, 1_000),
            _ => (factor.scheme, factor.lump_sum) = (2, 0),
        },
        Frame::Debit(debit) => match random.below(4) {
            0 => debit.pot = past_pay(random),
            1 => debit.factor = 0,
            2 => debit.scheme = 2,
            _ => debit.pot = LARGEST_PAY,
        },
    }
}

/// A year with more posts than it may have, or with two whole-time posts.
fn too_many_posts(random: &mut Random) -> Vec<Line> {
    let case = whole_case(random);
    let mut lines = named(random, case).lines();
    let mut posts = (0..lines.len()).filter(|&at| matches!(lines[at].frame, Frame::Post(_)));
    let at = posts.next().expect("a post");
    let mut more = lines[at].clone();
    if let Frame::Post(post) = &mut more.frame {
        if random.one_in(2) {
            post.contracted = post.whole_time;
        }
    }
    for _ in 0..random.pick(&[2, MOST_POSTS]) {
        lines.insert(at, more.clone());
    }
    lines
}

/// Lines with one of them left out, said twice, moved, or of the other section.
fn rearranged(random: &mut Random, mut lines: Vec<Line>) -> Vec<Line> {
    let (one, other) = (random.place(lines.len()), random.place(lines.len()));
    match random.below(5) {
        0 => drop(lines.remove(one)),
        1 => lines.insert(one, lines[one].clone()),
        2 => lines.insert(other, lines[one].clone()),
        3 => lines.swap(one, other),
        _ => {
            let frame = match section_of(&lines) {
                1 => Frame::TenPays(ten_pays(random)),
                _ => Frame::FinalPay(final_pay(random)),
            };
            lines.push(Line::of(frame));
        }
    }
    lines
}

/// Lines whose text is longer than a text may be.
fn too_long(random: &mut Random) -> Vec<Line> {
    let case = largest_case(random);
    let mut lines = named(random, case).lines();
    let last = lines[lines.len() - 1].clone();
    lines.push(last);
    lines
}

/// Where the member has no section there is no other one either.
fn without_other_scheme(lines: &mut [Line]) {
    if section_of(lines) != 0 {
        return;
    }
    for line in lines {
        match &mut line.frame {
            Frame::Factor(factor) => factor.scheme = factor.scheme.min(1),
            Frame::Debit(debit) => debit.scheme = debit.scheme.min(1),
            _ => {}
        }
    }
}

/// A line of one of the kinds that there are, each kind as often as another.
fn any_line(random: &mut Random, lines: &[Line]) -> usize {
    let kind = |at: usize| discriminant(&lines[at].frame);
    let mut places: Vec<usize> = (0..lines.len()).collect();
    random.shuffle(&mut places);
    let mut kinds: Vec<usize> = Vec::new();
    for at in places {
        if kinds.iter().all(|&known| kind(known) != kind(at)) {
            kinds.push(at);
        }
    }
    random.pick(&kinds)
}

/// Leaves out the factors of a scheme.
fn without_factors(random: &mut Random, lines: &mut Vec<Line>) {
    let left_out = random.below(2);
    lines.retain(|line| match line.frame {
        Frame::Factor(factor) => factor.scheme != left_out,
        _ => true,
    });
}

fn changed(random: &mut Random) -> Vec<Line> {
    let section = random.between(1, 2);
    let case = match random.below(3) {
        0 => case(random),
        _ => whole_case_in(random, section),
    };
    let mut lines = named(random, case).lines();
    let section = section_of(&lines);
    match random.below(40) {
        0 => return Vec::new(),
        1 => return too_long(random),
        2..=4 => return too_many_posts(random),
        5..=6 => without_factors(random, &mut lines),
        7..=14 => lines = rearranged(random, lines),
        _ => {
            let at = any_line(random, &lines);
            other_number(random, &mut lines[at].frame, section);
        }
    }
    without_other_scheme(&mut lines);
    lines
}

/// Lines that the rules refuse.
pub fn refused_lines(random: &mut Random) -> Vec<Line> {
    loop {
        let lines = changed(random);
        if crate::case(&text_of_lines(&lines)).refusal != 0 {
            return lines;
        }
    }
}

/// Lines with a debit whose factor no frame can say; where it stands comes with them.
pub fn unsayable_lines(random: &mut Random) -> (Vec<Line>, usize) {
    let case = whole_case(random);
    let mut lines = named(random, case).lines();
    let first = lines.len() - 2;
    let at = random.pick(&[first, first + 1]);
    if let Frame::Debit(debit) = &mut lines[at].frame {
        debit.factor = past(random, LARGEST_DEBIT_FACTOR);
    }
    (lines, at)
}
