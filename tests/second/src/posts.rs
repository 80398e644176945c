//! The posts of a year: sorted by rate and filled in turn.

use crate::wide::{Rounded, Wide};
use crate::{unless, LARGEST_PAY};
use std::cmp::Ordering;

/// The most posts of a year.
pub const MOST_POSTS: usize = 16;

/// The bytes of a post.
pub const POST_BYTES: usize = 12;

/// Contracted and whole-time minutes, yearly pay and yearly supplement in pence.
#[derive(Clone, Copy, Debug, PartialEq, Eq)]
pub struct Post {
    pub contracted: u64,
    pub whole_time: u64,
    pub pay: u64,
    /// For unsocial hours.
    pub supplement: u64,
}

impl Post {
    /// The four numbers of an 03, in their order there.
    pub fn of(numbers: &[u64; 4]) -> Post {
        let [contracted, whole_time, pay, supplement] = *numbers;
        Post {
            contracted,
            whole_time,
            pay,
            supplement,
        }
    }

    pub fn is_whole_time(&self) -> bool {
        self.contracted == self.whole_time
    }

    /// The same post paid no supplement.
    pub fn without_supplement(self) -> Post {
        Post {
            supplement: 0,
            ..self
        }
    }

    /// What it counts in full.
    pub fn pay_in_full(&self) -> u64 {
        self.pay + self.supplement
    }

    /// Its rate, (p × w/h + s)/w pence a minute: a number and its divisor.
    pub fn rate(&self) -> (u64, u64) {
        let number = self.pay * self.whole_time + self.supplement * self.contracted;
        (number, self.contracted * self.whole_time)
    }

    /// Its rate times both divisors, and that of another: a/b and c/d as a × d and c × b.
    pub fn rates_with(&self, other: &Post) -> (u128, u128) {
        let ((a, b), (c, d)) = (self.rate(), other.rate());
        let product = |one: u64, other: u64| u128::from(one) * u128::from(other);
        (product(a, d), product(c, b))
    }

    /// How its rate stands to that of another.
    pub fn compare_rates(&self, other: &Post) -> Ordering {
        let (own, others) = self.rates_with(other);
        own.cmp(&others)
    }
}

/// Refusals 7 and 8 of a post after the earlier posts of its year.
pub fn try_post(earlier: &[Post], post: &Post) -> Result<(), u64> {
    unless(post.contracted != 0, 7)?;
    unless(post.contracted <= post.whole_time, 7)?;
    unless(post.whole_time <= 10_080, 7)?;
    unless(post.pay <= LARGEST_PAY, 7)?;
    unless(post.supplement <= LARGEST_PAY, 7)?;
    unless(earlier.len() < MOST_POSTS, 7)?;
    let second = post.is_whole_time() && earlier.iter().any(Post::is_whole_time);
    unless(!second, 8)
}

/// H: the contracted minutes together, which is also the number of parts to a minute.
pub fn minutes_together(posts: &[Post]) -> u64 {
    posts.iter().map(|post| post.contracted).sum()
}

/// K: the parts that all posts together may have.
pub fn parts_together(posts: &[Post]) -> u64 {
    posts
        .iter()
        .map(|post| post.whole_time * post.contracted)
        .sum()
}

/// The places of the posts by falling rate; of equal rates the earlier post first.
pub fn by_rate(posts: &[Post]) -> Vec<usize> {
    in_order(posts, |one, other| other.compare_rates(one))
}

/// The places of the posts in an order. The sort keeps the order of equals.
pub fn in_order(posts: &[Post], compare: impl Fn(&Post, &Post) -> Ordering) -> Vec<usize> {
    let mut order: Vec<usize> = (0..posts.len()).collect();
    order.sort_by(|&one, &other| compare(&posts[one], &posts[other]));
    order
}

/// Fills the posts one after another in the order given, until the parts left are used up.
pub fn filled(posts: &[Post], order: &[usize], mut left: u64) -> Vec<u64> {
    let minutes = minutes_together(posts);
    let mut parts = vec![0; posts.len()];
    for &place in order {
        parts[place] = left.min(posts[place].contracted * minutes);
        left -= parts[place];
    }
    parts
}

/// The parts of each post by the posts step, in list order.
pub fn parts_of(posts: &[Post]) -> Vec<u64> {
    parts_by(posts, &by_rate(posts))
}

/// The same with the posts in another order than by rate.
pub fn parts_by(posts: &[Post], order: &[usize]) -> Vec<u64> {
    match posts.iter().position(Post::is_whole_time) {
        Some(place) => {
            let mut parts = vec![0; posts.len()];
            parts[place] = posts[place].contracted * minutes_together(posts);
            parts
        }
        None => filled(posts, order, parts_together(posts)),
    }
}

/// H times what a post is worth, a product over a divisor.
pub(crate) struct Worth {
    pub(crate) product: [u64; 2],
    pub(crate) divisor: u64,
}

/// The sum of what posts are worth, rounded once. The fractions are brought to one divisor, H times
/// those of all posts multiplied. It has 450 bits at most, 27 for each h × w of 16 posts and 18 for H;
/// with an aggregate of 35 bits the numbers stay below 2 to the power 512.
pub(crate) fn rounded_sum(posts: &[Post], worths: impl Iterator<Item = Worth>) -> Rounded {
    if posts.is_empty() {
        return Rounded::whole(0);
    }
    let mut number = Wide::new(0);
    let mut divisor = Wide::new(1);
    for worth in worths {
        let [one, other] = worth.product;
        let added = divisor.times(one).times(other);
        number = number.times(worth.divisor).plus(added);
        divisor = divisor.times(worth.divisor);
    }
    Rounded::of_wide(number, divisor.times(minutes_together(posts)))
}

/// A post's minutes times its rate.
fn minutes_times_rate(post: &Post, parts: u64) -> Worth {
    let (number, divisor) = post.rate();
    Worth {
        product: [parts, number],
        divisor,
    }
}

/// What parts of posts count, rounded once: p + s of a post in full, minutes times rate of another.
pub fn aggregate_of(posts: &[Post], parts: &[u64]) -> Rounded {
    let minutes = minutes_together(posts);
    let counted = |(post, &share): (&Post, &u64)| {
        if share == post.contracted * minutes {
            Worth {
                product: [minutes, post.pay_in_full()],
                divisor: 1,
            }
        } else {
            minutes_times_rate(post, share)
        }
    };
    rounded_sum(posts, posts.iter().zip(parts).map(counted))
}

/// What a rival's parts of posts are worth, rounded once: minutes times rate of all, those in full
/// too.
pub fn rival_aggregate(posts: &[Post], parts: &[u64]) -> Rounded {
    let shares = posts.iter().zip(parts);
    rounded_sum(
        posts,
        shares.map(|(post, &share)| minutes_times_rate(post, share)),
    )
}

/// The aggregate by the posts step.
pub fn aggregate(posts: &[Post]) -> Rounded {
    aggregate_of(posts, &parts_of(posts))
}

/// Refusals 21 and 22 of a list, then 7 and 8 post by post.
fn try_list(list: &[Post], places: usize) -> Result<(), u64> {
    unless(list.len() <= MOST_POSTS, 21)?;
    unless(list.len() <= places, 22)?;
    (0..list.len()).try_for_each(|place| try_post(&list[..place], &list[place]))
}

/// The call on posts lent as records: refusal and aggregate; the parts are written to the places.
pub fn records(list: &[Post], places: &mut [u64]) -> (u64, u64) {
    match try_list(list, places.len()) {
        Ok(()) => {
            let parts = parts_of(list);
            places[..parts.len()].copy_from_slice(&parts);
            (0, aggregate_of(list, &parts).number)
        }
        Err(refusal) => (refusal, 0),
    }
}

/// The post of its bytes.
fn post_of(bytes: &[u8]) -> Post {
    let number = |from: usize, to: usize| {
        bytes[from..to]
            .iter()
            .fold(0, |number, &byte| number * 256 + u64::from(byte))
    };
    Post::of(&[number(0, 2), number(2, 4), number(4, 8), number(8, 12)])
}

/// The posts call: refusal and aggregate; the parts are written to the places.
pub fn posts(bytes: &[u8], places: &mut [u64]) -> (u64, u64) {
    if bytes.len() % POST_BYTES != 0 {
        return (23, 0);
    }
    let list: Vec<Post> = bytes.chunks(POST_BYTES).map(post_of).collect();
    records(&list, places)
}
