//! Posts with supplements, with rare but telling shapes made common.

use crate::posts::{Post, MOST_POSTS};
use crate::random::Random;
use crate::LARGEST_PAY;

/// A supplement up to the most: of any size, a penny or the most of all.
fn supplement(random: &mut Random, most: u64) -> u64 {
    let any = random.of_any_size(most);
    random.pick(&[any, any, any, any, 1, most])
}

/// Gives supplements up to the most to some of the posts, to all or, half of the time, to none.
pub fn with_supplements(random: &mut Random, mut posts: Vec<Post>, most: u64) -> Vec<Post> {
    let one_in = match random.below(4) {
        0..=1 => return posts,
        2 => 2,
        _ => 1,
    };
    for post in &mut posts {
        if random.one_in(one_in) {
            post.supplement = supplement(random, most);
        }
    }
    posts
}

/// Posts of one rate, so many pence for so many minutes, each of which divides it otherwise into pay
/// and supplement; some a penny beside it.
fn posts_of_one_rate(random: &mut Random) -> Vec<Post> {
    let minutes = random.between(1, 60);
    let pence = random.between(1, 5_000);
    let beside = random.one_in(3);
    let count = random.between(2, 6);
    (0..count)
        .map(|_| {
            let (times, more) = (random.between(1, 30), random.between(1, 10));
            let of_pay = random.near_ends(0, pence);
            let aside = if beside { random.below(2) } else { 0 };
            Post {
                contracted: minutes * times,
                whole_time: minutes * (times + more),
                pay: times * of_pay + aside,
                supplement: (times + more) * (pence - of_pay),
            }
        })
        .collect()
}

fn greatest_common_divisor(one: u64, other: u64) -> u64 {
    match other {
        0 => one,
        _ => greatest_common_divisor(other, one % other),
    }
}

/// The minutes of two posts, h and w of each, no two of them with a common divisor.
fn coprime_minutes(random: &mut Random, low: u64, high: u64) -> [u64; 4] {
    loop {
        let minutes = [0; 4].map(|_| random.between(low, high));
        let coprime = |one: usize| {
            let mut later = minutes[one + 1..].iter();
            later.all(|&other| greatest_common_divisor(minutes[one], other) == 1)
        };
        if minutes[0] < minutes[1] && minutes[2] < minutes[3] && (0..4).all(coprime) {
            return minutes;
        }
    }
}

/// Two posts of minutes h, w, h, w and of amounts p, s, p, s.
fn two_posts(minutes: [u64; 4], amounts: [u64; 4]) -> [Post; 2] {
    [0, 2].map(|at| Post::of(&[minutes[at], minutes[at + 1], amounts[at], amounts[at + 1]]))
}

/// By how much the product of the first one's rate is the higher.
fn apart([one, other]: [Post; 2]) -> i128 {
    let (first, second) = one.rates_with(&other);
    first as i128 - second as i128
}

/// The amount below the minutes in a place which, times the other three, leaves the rest that the
/// number leaves when it is divided by these minutes.
fn amount_leaving(minutes: &[u64; 4], place: usize, number: u64) -> u64 {
    let own = minutes[place];
    let others = (0..4).filter(|&other| other != place);
    let product = others.fold(1, |product, other| product * minutes[other] % own);
    let leaves = |amount: &u64| product * amount % own == number % own;
    (0..own).find(leaves).expect("no common divisor")
}

/// Two posts, the product of the first one's rate higher by so much, where they are found. The
/// difference of the products is p/h + s/w less that of the other post, times all four minutes. Each
/// amount makes it leave the right rest by the amount's own minutes, so that it is wrong by whole pence
/// a minute, which are put right where they are added to all four.
fn posts_apart(random: &mut Random, difference: u64) -> Option<[Post; 2]> {
    let large = random.one_in(2);
    let (low, high) = if large { (9_000, 10_080) } else { (2, 3_000) };
    let minutes = coprime_minutes(random, low, high);
    let mut amounts = [0, 1, 2, 3].map(|place| amount_leaving(&minutes, place, difference));
    for place in [2, 3] {
        // What is taken away leaves the rest with the other sign.
        amounts[place] = (minutes[place] - amounts[place]) % minutes[place];
    }
    let all: i128 = minutes.iter().map(|&of| i128::from(of)).product();
    let wrong = (apart(two_posts(minutes, amounts)) - i128::from(difference)) / all;
    let most = i128::from(LARGEST_PAY / high) - 1;
    let least = if large { most * 9 / 10 } else { 0 };
    let mut added = [0; 4].map(|_| random.between(least as u64, most as u64) as i128);
    added[3] = added[0] + added[1] - added[2] + wrong;
    if !(0..=most).contains(&added[3]) {
        return None;
    }
    for place in 0..4 {
        amounts[place] += added[place] as u64 * minutes[place];
    }
    Some(two_posts(minutes, amounts))
}

/// The same in either order, by a difference of one or of any number of the lower half.
fn posts_of_near_products(random: &mut Random) -> Vec<Post> {
    let any = random.between(1, (1 << 32) - 1);
    let difference = random.pick(&[1, 1, any]);
    loop {
        if let Some(posts) = posts_apart(random, difference) {
            let mut posts = posts.to_vec();
            random.shuffle(&mut posts);
            return posts;
        }
    }
}

/// The most posts, all at the limits of their fields: all but whole-time, or all in full, or a minute
/// more or less than that.
fn most_posts_at_limits(random: &mut Random) -> Vec<Post> {
    let full = 10_080 / MOST_POSTS as u64;
    let contracted = random.pick(&[10_079, full, full + 1, full - 1]);
    vec![Post::of(&[contracted, 10_080, LARGEST_PAY, LARGEST_PAY]); MOST_POSTS]
}

/// A whole-time post with a supplement, alone.
fn lone_whole_time_post(random: &mut Random) -> Vec<Post> {
    let minutes = random.near_ends(1, 10_080);
    let pay = random.of_any_size(LARGEST_PAY);
    let supplement = supplement(random, LARGEST_PAY);
    vec![Post::of(&[minutes, minutes, pay, supplement])]
}

/// Posts of one of these shapes.
pub fn telling_posts(random: &mut Random) -> Vec<Post> {
    match random.below(12) {
        0..=5 => posts_of_one_rate(random),
        6..=9 => posts_of_near_products(random),
        10 => most_posts_at_limits(random),
        _ => lone_whole_time_post(random),
    }
}

#[cfg(test)]
mod tests {
    use super::*;
    use crate::posts::try_post;

    #[test]
    fn products_are_as_far_apart_as_wanted() {
        let mut random = Random::new(0x0207);
        let mut drawn = 0;
        while drawn < 400 {
            let difference = random.pick(&[1, 2, 0xFFFF_FFFF]);
            if let Some([one, other]) = posts_apart(&mut random, difference) {
                let (higher, lower) = one.rates_with(&other);
                assert_eq!(higher, lower + u128::from(difference));
                assert!(try_post(&[], &one).is_ok() && try_post(&[], &other).is_ok());
                drawn += 1;
            }
        }
    }

    #[test]
    fn telling_posts_are_accepted() {
        let mut random = Random::new(0x0702);
        for _ in 0..2_000 {
            let posts = telling_posts(&mut random);
            for place in 0..posts.len() {
                assert_eq!(try_post(&posts[..place], &posts[place]), Ok(()));
            }
        }
    }
}
