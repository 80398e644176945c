//! Tries rival workings: none may have a larger net pension sum or a larger net lump sum than the
//! amounts that the case gives. Small cases are held against every rival there is, large ones
//! against random and greedy rivals. The amounts are the engine's; a rival has no count of roundings.
//! A rival's years are valued in minutes times rate, in which no division is better than the engine's;
//! its own amounts count p + s for posts in full, which without a supplement is the same.

use second::benefits::after_year;
use second::cases::{Case, Year};
use second::engine;
use second::posts::{
    filled, in_order, minutes_together, parts_of, parts_together, rival_aggregate, Post,
};
use second::random::Random;
use second::samples::accepted;
use second::samples::writing::{case_text, post_records};
use second::ten_pays::TenPays;
use second::wide::Rounded;
use second::Outcome;
use std::collections::BTreeSet;
use std::ops::RangeInclusive;
use std::process::exit;

const SEED: u64 = 0x0061_7661_6C73_0003;
const SMALL_CASES: u64 = 4_000;
const LARGE_CASES: u64 = 10_000;
const RIVALS_OF_A_LARGE_CASE: usize = 60;

/// The least number of small cases with a supplement and without, and of large ones.
const LEAST_OF_EITHER: u64 = 1_000;

/// The two amounts a rival is judged by; a net below zero stays so.
#[derive(Clone, Copy, Debug, PartialEq, Eq)]
struct Nets {
    pensions: i128,
    lump_sum: i128,
}

/// The nets of a 2015 pension before reduction and of a final year of the section.
fn nets(case: &Case, pension_2015: u64, final_year: usize) -> Nets {
    let had = case
        .benefits(pension_2015, final_year)
        .expect("a case with its factors");
    let debits = case.benefit_debits();
    let less = |amount: u64, debit: u64| i128::from(amount) - i128::from(debit);
    Nets {
        pensions: less(had.pension_2015, debits.pension_2015)
            + less(had.pension_1995, debits.pension_1995),
        lump_sum: less(had.lump_sum, debits.lump_sum),
    }
}

fn given_nets(given: &Outcome) -> Nets {
    Nets {
        pensions: i128::from(given.net_2015) + i128::from(given.net_1995),
        lump_sum: i128::from(given.net_lump_sum),
    }
}

/// The years that a rival may pick for final pay, or for the last of three consecutive years; one
/// stands for none without a section.
fn final_years(case: &Case) -> RangeInclusive<usize> {
    match case.section() {
        1 => 1..=3,
        2 => TenPays::last_years(),
        _ => 1..=1,
    }
}

fn fail(text: &[u8], given: Nets, rival: Nets) -> ! {
    println!("A RIVAL IS BETTER, or none is as good");
    println!("{}", String::from_utf8_lossy(text));
    println!("given: {given:?}");
    println!("rival: {rival:?}");
    exit(1);
}

/// Every division of the parts of a year: their number and the aggregates that they give.
struct Divisions {
    count: u128,
    aggregates: BTreeSet<u64>,
}

impl Divisions {
    fn of(year: &Year) -> Divisions {
        let mut divisions = Divisions {
            count: 0,
            aggregates: BTreeSet::new(),
        };
        let mut parts = vec![0; year.posts.len()];
        if year.posts.iter().any(Post::is_whole_time) {
            divisions.add(&year.posts, &parts_of(&year.posts));
        } else {
            let left = parts_together(&year.posts);
            divisions.add_all(&year.posts, &mut parts, 0, left);
        }
        divisions
    }

    fn add(&mut self, posts: &[Post], parts: &[u64]) {
        self.count += 1;
        self.aggregates.insert(rival_aggregate(posts, parts).number);
    }

    /// Adds every division that has the parts so far before the place.
    fn add_all(&mut self, posts: &[Post], parts: &mut [u64], place: usize, left: u64) {
        if place == posts.len() {
            self.add(posts, parts);
            return;
        }
        let most = left.min(posts[place].contracted * minutes_together(posts));
        for share in 0..=most {
            parts[place] = share;
            self.add_all(posts, parts, place + 1, left - share);
        }
    }
}

/// Whether a post of a year has a supplement.
fn has_supplement(case: &Case) -> bool {
    let mut posts = case.years.iter().flat_map(|year| &year.posts);
    posts.any(|post| post.supplement > 0)
}

/// The nets of the engine's own division of each year, valued as a rival's.
fn nets_of_own_parts(case: &Case) -> Nets {
    let worth = |year: &Year| {
        let mut parts = vec![0; year.posts.len()];
        let (refusal, _) = engine::posts(&post_records(&year.posts), &mut parts);
        assert_eq!(refusal, 0);
        rival_aggregate(&year.posts, &parts)
    };
    let aggregates: Vec<Rounded> = case.years.iter().map(worth).collect();
    nets(case, case.pension_2015(&aggregates), case.final_year())
}

/// Holds a small case against every rival and gives their number. The pension after a year depends
/// on the picks before it only through the pension before it, so sets of pensions are enough.
fn try_every_rival(case: &Case) -> u128 {
    let text = case_text(case);
    let given = given_nets(&engine::case(&text));
    let mut count = 1;
    let mut pensions = BTreeSet::from([0]);
    for year in &case.years {
        let divisions = Divisions::of(year);
        count *= divisions.count;
        pensions = pensions
            .iter()
            .flat_map(|&pension| {
                let after =
                    move |&aggregate: &u64| after_year(pension, year.revaluation, aggregate);
                divisions.aggregates.iter().map(after)
            })
            .collect();
    }
    let (mut best_pensions, mut best_lump_sum) = (i128::MIN, i128::MIN);
    for final_year in final_years(case) {
        for &pension in &pensions {
            let rival = nets(case, pension, final_year);
            if rival.pensions > given.pensions || rival.lump_sum > given.lump_sum {
                fail(&text, given, rival);
            }
            best_pensions = best_pensions.max(rival.pensions);
            best_lump_sum = best_lump_sum.max(rival.lump_sum);
        }
    }
    // The case's own division is one of the rivals.
    let best = Nets {
        pensions: best_pensions,
        lump_sum: best_lump_sum,
    };
    let own = nets_of_own_parts(case);
    if best != own || (best != given && !has_supplement(case)) {
        fail(&text, given, best);
    }
    count * final_years(case).count() as u128
}

/// The places of posts in one of several orders.
fn some_order(random: &mut Random, posts: &[Post]) -> Vec<usize> {
    let key: fn(&Post) -> u64 = match random.below(7) {
        0 => |post| post.pay,
        1 => |post| post.contracted,
        2 => |post| post.pay * 1_000 / post.contracted,
        3 => |post| post.supplement,
        4 => |post| post.pay_in_full(),
        5 => |post| post.pay_in_full() * 1_000 / post.contracted,
        _ => {
            let mut order: Vec<usize> = (0..posts.len()).collect();
            random.shuffle(&mut order);
            return order;
        }
    };
    let falling = random.one_in(2);
    in_order(posts, |one, other| {
        let rising = key(one).cmp(&key(other));
        if falling {
            rising.reverse()
        } else {
            rising
        }
    })
}

/// Any shares for the posts in any order, each within what is left.
fn random_parts(random: &mut Random, posts: &[Post]) -> Vec<u64> {
    let minutes = minutes_together(posts);
    let mut left = parts_together(posts);
    let mut parts = vec![0; posts.len()];
    for place in some_order(random, posts) {
        let most = left.min(posts[place].contracted * minutes);
        parts[place] = random.near_ends(0, most);
        left -= parts[place];
    }
    parts
}

/// The parts of the posts step with some moved from one post to another.
fn moved_parts(random: &mut Random, posts: &[Post]) -> Vec<u64> {
    let mut parts = parts_of(posts);
    let (from, to) = (random.place(posts.len()), random.place(posts.len()));
    let room = posts[to].contracted * minutes_together(posts) - parts[to];
    let most = room.min(parts[from]);
    if from != to && most > 0 {
        let moved = random.near_ends(1, most);
        parts[from] -= moved;
        parts[to] += moved;
    }
    parts
}

/// A rival's parts of a year.
fn rival_parts(random: &mut Random, posts: &[Post]) -> Vec<u64> {
    if posts.is_empty() || posts.iter().any(Post::is_whole_time) {
        return parts_of(posts);
    }
    let parts = match random.below(4) {
        0 => random_parts(random, posts),
        1 => {
            let order = some_order(random, posts);
            filled(posts, &order, parts_together(posts))
        }
        2 => moved_parts(random, posts),
        _ => parts_of(posts),
    };
    let minutes = minutes_together(posts);
    let within = |(share, post): (&u64, &Post)| *share <= post.contracted * minutes;
    assert!(parts.iter().zip(posts).all(within));
    assert!(parts.iter().sum::<u64>() <= parts_together(posts));
    parts
}

/// Holds a case against some rivals, with each final year in turn; gives how many of them were as
/// good in both amounts.
fn try_some_rivals(random: &mut Random, case: &Case) -> u64 {
    let text = case_text(case);
    let given = given_nets(&engine::case(&text));
    let mut as_good = 0;
    let final_years = final_years(case).cycle();
    for final_year in final_years.take(RIVALS_OF_A_LARGE_CASE) {
        let aggregates: Vec<Rounded> = case
            .years
            .iter()
            .map(|year| rival_aggregate(&year.posts, &rival_parts(random, &year.posts)))
            .collect();
        let rival = nets(case, case.pension_2015(&aggregates), final_year);
        if rival.pensions > given.pensions || rival.lump_sum > given.lump_sum {
            fail(&text, given, rival);
        }
        as_good += u64::from(rival == given);
    }
    as_good
}

/// How many cases have a supplement and how many have none. Some of either must be there.
#[derive(Default)]
struct Supplements {
    with: u64,
    without: u64,
}

impl Supplements {
    fn add(&mut self, case: &Case) {
        if has_supplement(case) {
            self.with += 1;
        } else {
            self.without += 1;
        }
    }

    fn print(&self) {
        let Supplements { with, without } = self;
        println!("{with} with a supplement, {without} with none");
        if (*with).min(*without) < LEAST_OF_EITHER {
            println!("of either at least {LEAST_OF_EITHER}");
            exit(1);
        }
    }
}

fn try_small_cases(random: &mut Random) {
    let mut every = 0;
    let mut by_section = [0; 3];
    let mut supplements = Supplements::default();
    for _ in 0..SMALL_CASES {
        let case = accepted::small_case(random);
        every += try_every_rival(&case);
        by_section[case.section() as usize] += 1;
        supplements.add(&case);
    }
    let [none, of_1995, of_2008] = by_section;
    println!("{SMALL_CASES} small cases, all of {every} rivals:");
    println!("{none} without a section, {of_1995} in the 1995 Section, {of_2008} in the 2008");
    supplements.print();
}

fn try_large_cases(random: &mut Random) {
    let mut as_good = 0;
    let mut supplements = Supplements::default();
    for _ in 0..LARGE_CASES {
        let case = accepted::case(random);
        as_good += try_some_rivals(random, &case);
        supplements.add(&case);
    }
    let some = LARGE_CASES * RIVALS_OF_A_LARGE_CASE as u64;
    println!("{LARGE_CASES} large cases, {some} rivals, {as_good} of them as good:");
    supplements.print();
}

fn main() {
    let mut random = Random::new(SEED);
    try_small_cases(&mut random);
    try_large_cases(&mut random);
    println!("no rival is better");
}
