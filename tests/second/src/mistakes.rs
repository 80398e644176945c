//! Six mistakes that case officers make: workings of a case with exactly one step wrong. Each shows on
//! its own example, `examples/NAME.txt`, and on none of the other five.

use crate::cases::{Case, Outcome};
use crate::posts::{
    aggregate, aggregate_of, by_rate, filled, in_order, minutes_together, parts_of, parts_together,
    Post,
};
use crate::wide::{rounded, Rounded, Way};

#[derive(Clone, Copy, Debug, PartialEq, Eq)]
pub enum Mistake {
    /// The smaller salary is cut: posts are ranked by pay, not by rate of pay.
    SmallerSalary,
    /// The proportion of whole time of a cut post is carried with three digits.
    ThreeDigits,
    /// The week is averaged over the posts, not weighted by their contracted minutes.
    AveragedWeek,
    /// Months early are rounded down: a month of age that is begun counts as completed.
    MonthsDown,
    /// The last year's pay is final pay, even where an earlier of the three was better.
    LastYear,
    /// A rise is allowed on the full pay of the year before, even where its allowed pay was lower.
    FullRise,
}

impl Mistake {
    pub const ALL: [Mistake; 6] = [
        Mistake::SmallerSalary,
        Mistake::ThreeDigits,
        Mistake::AveragedWeek,
        Mistake::MonthsDown,
        Mistake::LastYear,
        Mistake::FullRise,
    ];

    /// The name of the example that shows it.
    pub fn example(self) -> &'static str {
        match self {
            Mistake::SmallerSalary => "mistake_smaller_salary",
            Mistake::ThreeDigits => "mistake_three_digits",
            Mistake::AveragedWeek => "mistake_averaged_week",
            Mistake::MonthsDown => "mistake_months_down",
            Mistake::LastYear => "mistake_last_year",
            Mistake::FullRise => "mistake_full_rise",
        }
    }
}

/// What an accepted case comes to with a mistake, or the refusal of its closing.
pub fn closed(case: &Case, mistake: Mistake) -> Result<Outcome, u64> {
    let mut case = case.clone();
    let mut final_year = case.final_year();
    let mut counted_apart = 0;
    match mistake {
        Mistake::MonthsDown => complete_month(&mut case),
        Mistake::LastYear => final_year = 1,
        Mistake::FullRise => {
            counted_apart = other_rises_up(&case, final_year);
            raise_full_pay(&mut case, final_year);
        }
        _ => {}
    }
    let years = case.years.iter();
    let aggregates: Vec<Rounded> = years.map(|y| aggregate_with(mistake, &y.posts)).collect();
    let mut given = case.close_with(&aggregates, final_year)?;
    given.rounded_up += counted_apart;
    Ok(given)
}

/// Puts retirement on the day on which the month of age then begun is over.
fn complete_month(case: &mut Case) {
    if let Some(member) = &mut case.member {
        let (birth, retirement) = (member.birth, member.retirement);
        let over = birth.completes(retirement.year, retirement.month);
        let next = u64::from(retirement.day > over.day);
        let months = 12 * retirement.year + retirement.month - 1 + next;
        member.retirement = birth.completes(months / 12, months % 12 + 1);
    }
}

/// Leaves the control of the final year alone, bits 0, 1, 2 for years 3, 2, 1: the year before then
/// has its full pay as allowed.
fn raise_full_pay(case: &mut Case, final_year: usize) {
    if let Some(final_pay) = &mut case.final_pay {
        final_pay.controls &= 8u64 >> final_year;
    }
}

/// How many rises on full pay go up, of those to years that are controlled besides the final one: they
/// are worked too, though without their control they are no longer counted.
fn other_rises_up(case: &Case, final_year: usize) -> u64 {
    let Some(given) = case.final_pay else {
        return 0;
    };
    let others = (1..=3).filter(|&year| year != final_year && given.controlled(year));
    let up = |year: &usize| given.raised(*year, given.pay(year + 1)).way == Way::Up;
    others.filter(up).count() as u64
}

/// The aggregate of a year with a mistake. No post is cut beside a whole-time one.
fn aggregate_with(mistake: Mistake, posts: &[Post]) -> Rounded {
    if posts.is_empty() || posts.iter().any(Post::is_whole_time) {
        return aggregate(posts);
    }
    match mistake {
        Mistake::SmallerSalary => {
            let parts = filled(posts, &by_pay(posts), parts_together(posts));
            aggregate_of(posts, &parts)
        }
        Mistake::AveragedWeek => {
            let parts = filled(posts, &by_rate(posts), averaged_parts(posts));
            aggregate_of(posts, &parts)
        }
        Mistake::ThreeDigits => {
            let shares = posts.iter().zip(parts_of(posts));
            let minutes = minutes_together(posts);
            together(shares.map(|(post, parts)| pay_by_proportion(post, parts, minutes)))
        }
        _ => aggregate(posts),
    }
}

/// The places of the posts by falling pay; of equal pays the earlier post first.
fn by_pay(posts: &[Post]) -> Vec<usize> {
    in_order(posts, |one, other| other.pay.cmp(&one.pay))
}

/// The whole parts of a week that is the plain average of the posts' weeks.
fn averaged_parts(posts: &[Post]) -> u64 {
    let weeks: u64 = posts.iter().map(|post| post.whole_time).sum();
    minutes_together(posts) * weeks / posts.len() as u64
}

/// The sum of numbers of which at most one was not whole, with the way of that one.
fn together(numbers: impl Iterator<Item = Rounded>) -> Rounded {
    numbers.fold(Rounded::whole(0), |sum, next| Rounded {
        number: sum.number + next.number,
        way: match next.way {
            Way::Exact => sum.way,
            way => way,
        },
    })
}

/// The pay of a post for its parts. That of a cut post is its part of a whole-time pay, which is its
/// pay over its proportion of whole time in thousandths, and the supplement, not grossed up. At most
/// one post is cut to some of its parts, so that each may be rounded.
fn pay_by_proportion(post: &Post, parts: u64, minutes: u64) -> Rounded {
    if parts == post.contracted * minutes {
        return Rounded::whole(post.pay_in_full());
    }
    let week = u128::from(post.whole_time);
    let proportion = rounded(u128::from(post.contracted) * 1_000, week).max(1);
    let thousandths = post.pay * 1_000 + post.supplement * proportion;
    Rounded::of(
        u128::from(thousandths) * u128::from(parts),
        u128::from(minutes) * week * u128::from(proportion),
    )
}
