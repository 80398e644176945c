//! Texts, lists of posts and changes of years drawn from a fixed seed, every one different and none
//! refused; and, only to be compared, texts of the 2008 Section, lists and texts with supplements,
//! and changes that are refused.

pub mod changes;
pub mod section_2008;
pub mod supplements;

use second::benefits::FinalPay;
use second::calendar::{Date, SECTION_PENSION_AGES};
use second::cases::{Case, Year};
use second::frames::{Debit, Factor, Member};
use second::posts::Post;
use second::random::Random;
use second::samples::writing::{case_text, post_records};
use std::collections::HashSet;

/// The least number of inputs of one size. Small inputs are more, so that all together have at
/// least so many bytes: a processor learns the branches of what it meets again and again.
const LEAST_COUNT: usize = 256;
const LEAST_BYTES: usize = 6_000_000;

/// The shortest whole-time week of a post, in minutes.
const SHORTEST_WEEK: u64 = 1_800;

/// What the cases of one size have.
#[derive(Clone, Copy)]
pub struct Size {
    pub years: u64,
    pub posts: u64,
    /// Whether there are a section, an 04, factors and debits besides.
    pub whole: bool,
}

/// The sizes that are compared and timed.
pub const SIZES: [Size; 10] = [
    plain(1, 1),
    plain(1, 4),
    plain(1, 16),
    plain(10, 1),
    plain(10, 4),
    plain(10, 16),
    plain(50, 1),
    plain(50, 4),
    plain(50, 16),
    Size {
        years: 10,
        posts: 4,
        whole: true,
    },
];

/// The place of the year of 16 posts among the sizes.
pub const ONE_YEAR: usize = 2;

const fn plain(years: u64, posts: u64) -> Size {
    Size {
        years,
        posts,
        whole: false,
    }
}

/// How the contracted minutes of the posts of a list agree.
#[derive(Clone, Copy)]
pub enum Contracts {
    /// Each drawn by itself.
    Any,
    /// One for all posts.
    Equal,
    /// Three posts in four have one, the others each their own.
    MostlyEqual,
    /// No two alike.
    Different,
}

/// What the lists of one kind have.
#[derive(Clone, Copy)]
pub struct Kind {
    pub posts: usize,
    pub contracts: Contracts,
    /// Whether every post has a supplement, or none.
    pub supplements: bool,
}

/// The kinds of lists that are compared and timed.
pub const KINDS: [Kind; 11] = [
    list(16, Contracts::Any),
    list(4, Contracts::Equal),
    list(4, Contracts::MostlyEqual),
    list(4, Contracts::Different),
    list(8, Contracts::Equal),
    list(8, Contracts::MostlyEqual),
    list(8, Contracts::Different),
    list(16, Contracts::Equal),
    list(16, Contracts::MostlyEqual),
    list(16, Contracts::Different),
    Kind {
        posts: 16,
        contracts: Contracts::Any,
        supplements: true,
    },
];

const fn list(posts: usize, contracts: Contracts) -> Kind {
    Kind {
        posts,
        contracts,
        supplements: false,
    }
}

/// Draws inputs until they are enough, each different from those before.
fn enough(mut draw: impl FnMut() -> Vec<u8>) -> Vec<Vec<u8>> {
    let mut inputs = Vec::new();
    let mut drawn = HashSet::new();
    let mut bytes = 0;
    while inputs.len() < LEAST_COUNT || bytes < LEAST_BYTES {
        let input = draw();
        if drawn.insert(input.clone()) {
            bytes += input.len();
            inputs.push(input);
        }
    }
    inputs
}

/// The texts of a size.
pub fn texts(random: &mut Random, size: Size) -> Vec<Vec<u8>> {
    enough(|| case_text(&case(random, size)))
}

/// The lists of a kind, as the posts call takes them.
pub fn lists(random: &mut Random, kind: Kind) -> Vec<Vec<u8>> {
    enough(|| post_records(&posts_of(random, kind)))
}

/// The posts of a list of the kind.
fn posts_of(random: &mut Random, kind: Kind) -> Vec<Post> {
    let mut posts = posts(random, kind.posts as u64);
    if kind.supplements {
        for post in &mut posts {
            post.supplement = random.between(10_000, 900_000);
        }
    }
    let others = match kind.contracts {
        Contracts::Any => return posts,
        Contracts::Equal => 0,
        Contracts::MostlyEqual => kind.posts / 4,
        Contracts::Different => kind.posts - 1,
    };
    let minutes = minutes(random, others + 1);
    for (at, post) in posts.iter_mut().enumerate() {
        post.contracted = minutes[at.min(others)];
    }
    random.shuffle(&mut posts);
    posts
}

/// So many contracted minutes, no two alike, all below the shortest week.
fn minutes(random: &mut Random, count: usize) -> Vec<u64> {
    let mut minutes = Vec::new();
    while minutes.len() < count {
        let drawn = random.between(60, SHORTEST_WEEK - 1);
        if !minutes.contains(&drawn) {
            minutes.push(drawn);
        }
    }
    minutes
}

/// Posts of varied weeks and rates, none of them whole-time or with a supplement.
fn posts(random: &mut Random, count: u64) -> Vec<Post> {
    let mut post = || {
        let any = random.between(SHORTEST_WEEK, 2_700);
        let whole_time = random.pick(&[2_250, 2_250, 2_400, any]);
        Post {
            contracted: random.between(60, whole_time - 1),
            whole_time,
            pay: random.between(100_000, 9_000_000),
            supplement: 0,
        }
    };
    (0..count).map(|_| post()).collect()
}

/// A case of the size.
fn case(random: &mut Random, size: Size) -> Case {
    let first = random.between(2015, 2045);
    let years = (first..first + size.years).map(|april| Year {
        april,
        revaluation: random.between(0, 900),
        posts: posts(random, size.posts),
    });
    let mut case = Case {
        years: years.collect(),
        ..Case::default()
    };
    if size.whole {
        add_section(random, &mut case);
    } else {
        let late = random.between(0, 36);
        case.member = Some(member(random, 0, 67, 12 * 67 + late));
    }
    case
}

/// A member who retires so many months after birth, on the day of birth.
fn member(random: &mut Random, section: u64, pension_age: u64, months: u64) -> Member {
    let birth = Date {
        year: random.between(1950, 1990),
        month: random.between(1, 12),
        day: random.between(1, 28),
    };
    let reached = 12 * birth.year + birth.month - 1 + months;
    let retirement = Date {
        year: reached / 12,
        month: reached % 12 + 1,
        day: birth.day,
    };
    Member {
        birth,
        retirement,
        section,
        pension_age,
        section_pension_age: SECTION_PENSION_AGES[section as usize],
    }
}

/// Adds a member of the 1995 Section who retires early by both schemes, final pay, factors and
/// debits.
fn add_section(random: &mut Random, case: &mut Case) {
    let early = random.between(1, 60);
    case.member = Some(member(random, 1, 67, 720 - early));
    case.final_pay = Some(FinalPay {
        pays: [0; 4].map(|_| random.between(2_000_000, 6_000_000)),
        allowances: [0; 3].map(|_| random.between(0, 100)),
        controls: random.below(8),
        days: random.between(3_000, 14_600),
        factor: random.between(1_500, 2_500),
    });
    for (scheme, early) in [(0, early + 84), (1, early)] {
        case.factors.extend(factors(random, scheme, early));
        case.debits.push(Debit {
            scheme,
            pot: random.between(10_000, 500_000),
            factor: random.between(1_500, 2_500),
        });
    }
}

/// A dozen factors of a scheme that follow one another, the wanted one among them.
fn factors(random: &mut Random, scheme: u64, wanted: u64) -> Vec<Factor> {
    let first = wanted.saturating_sub(random.below(12)).max(1);
    let factor = |months| Factor {
        scheme,
        months,
        pension: random.between(600, 999),
        lump_sum: scheme * random.between(600, 999),
    };
    (first..first + 12).map(factor).collect()
}
