//! Ten pays of the 2008 Section, with rare but telling shapes made common.

use crate::random::Random;
use crate::ten_pays::{TenPays, MOST_DAYS};
use crate::LARGEST_PAY;

/// Pays up to the top.
fn any_pays(random: &mut Random, top: u64) -> [u64; 10] {
    [0; 10].map(|_| random.between(0, top))
}

/// Pays that rise year by year, or fall.
fn sloping_pays(random: &mut Random, top: u64) -> [u64; 10] {
    let mut pays = any_pays(random, top);
    pays.sort();
    if random.one_in(2) {
        pays.reverse();
    }
    pays
}

/// Pays of which three consecutive ones are far above the others.
fn pays_with_peak(random: &mut Random, top: u64) -> [u64; 10] {
    let mut pays = any_pays(random, top / 2);
    let first = random.place(8);
    for pay in &mut pays[first..first + 3] {
        *pay = top - random.between(0, top / 8);
    }
    pays
}

/// Pays of which the same three stand twice above the others, in any order.
fn pays_with_two_peaks(random: &mut Random, top: u64) -> [u64; 10] {
    let mut pays = any_pays(random, top / 3);
    let mut high = [top, top - top / 7, top - top / 9];
    let first = random.place(5);
    let second = random.between(first as u64 + 3, 7) as usize;
    for place in [first, second] {
        random.shuffle(&mut high);
        pays[place..place + 3].copy_from_slice(&high);
    }
    pays
}

/// One pay in every year but one, which has a higher one.
fn pays_with_one_high(random: &mut Random, top: u64) -> [u64; 10] {
    let mut pays = [random.between(0, top); 10];
    pays[random.place(10)] = top;
    pays
}

/// One pay, or a penny or two less.
fn near_pays(random: &mut Random, top: u64) -> [u64; 10] {
    [0; 10].map(|_| top.saturating_sub(random.below(3)))
}

/// Pays at the ends of their field.
fn pays_at_ends(random: &mut Random) -> [u64; 10] {
    [0; 10].map(|_| random.pick(&[0, 1, LARGEST_PAY - 1, LARGEST_PAY]))
}

/// The pays and days of an 08.
pub fn ten_pays(random: &mut Random) -> TenPays {
    let top = random.of_any_size(LARGEST_PAY);
    let pays = match random.below(12) {
        0 => [top; 10],
        1 => [LARGEST_PAY; 10],
        2..=3 => sloping_pays(random, top),
        4..=5 => pays_with_peak(random, top),
        6 => pays_with_two_peaks(random, top),
        7 => pays_with_one_high(random, top),
        8..=9 => near_pays(random, top),
        10 => pays_at_ends(random),
        _ => any_pays(random, top),
    };
    let days = random.near_ends(0, MOST_DAYS);
    TenPays {
        pays,
        days: random.pick(&[days, days, 7_300, 10_950]),
    }
}
