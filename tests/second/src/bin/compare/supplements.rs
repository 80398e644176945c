//! The classes of accepted lists of posts, and of cases, by their supplements.

use crate::classes::{any_year, cut_decides_between, is_cut, Test};
use second::cases::Case;
use second::document_01::by_pay_a_minute;
use second::posts::{
    aggregate, in_order, minutes_together, parts_by, parts_of, rival_aggregate, Post, MOST_POSTS,
};
use second::wide::Way;
use second::LARGEST_PAY;
use std::cmp::Ordering;

fn supplemented(post: &Post) -> bool {
    post.supplement > 0
}

pub fn has_supplement(posts: &[Post]) -> bool {
    posts.iter().any(supplemented)
}

fn all_have(posts: &[Post]) -> bool {
    !posts.is_empty() && posts.iter().all(supplemented)
}

fn has_one_of(posts: &[Post], supplement: u64) -> bool {
    posts.iter().any(|post| post.supplement == supplement)
}

/// Whether a whole-time post has a supplement.
fn on_whole_time(posts: &[Post]) -> bool {
    let of = |post: &Post| post.is_whole_time() && supplemented(post);
    posts.iter().any(of)
}

/// Whether a whole-time post has none, and another post beside it has one.
fn beside_whole_time(posts: &[Post]) -> bool {
    let of = |post: &Post| post.is_whole_time() && !supplemented(post);
    posts.iter().any(of) && has_supplement(posts)
}

/// What a post has of its parts.
#[derive(Clone, Copy, PartialEq, Eq)]
enum Had {
    None,
    Some,
    All,
}

/// Whether beside no whole-time post one with a supplement has so much of its parts.
fn on_post_with(posts: &[Post], had: Had) -> bool {
    let minutes = minutes_together(posts);
    let of = |(post, parts): (&Post, u64)| {
        let has = match parts {
            0 => Had::None,
            parts if parts == post.contracted * minutes => Had::All,
            _ => Had::Some,
        };
        supplemented(post) && has == had
    };
    let in_part = !posts.iter().any(Post::is_whole_time);
    in_part && posts.iter().zip(parts_of(posts)).any(of)
}

/// The cut decides between two posts of one rate, alike in nothing else, of which the supplement of the
/// earlier stands so to that of the later.
fn equal_rates(posts: &[Post], standing: Ordering) -> bool {
    cut_decides_between(posts, |one, other| {
        one.compare_rates(other) == Ordering::Equal
            && one.supplement.cmp(&other.supplement) == standing
            && one.contracted != other.contracted
            && one.whole_time != other.whole_time
            && one.pay != other.pay
    })
}

/// The cut decides between two posts, the rate of the earlier of which stands so to that of the later,
/// and the products of both pass the test.
fn near_products(posts: &[Post], standing: Ordering, test: fn(u128, u128) -> bool) -> bool {
    cut_decides_between(posts, |one, other| {
        let (earlier, later) = one.rates_with(other);
        earlier.cmp(&later) == standing && test(earlier, later)
    })
}

/// Products past 64 bits with the same upper half.
fn by_lower_half(one: u128, other: u128) -> bool {
    one >> 32 == other >> 32 && one >> 64 > 0
}

/// The lower halves, of 32 bits, stand to one another otherwise than the products.
fn against_lower_half(one: u128, other: u128) -> bool {
    (one as u32).cmp(&(other as u32)) == other.cmp(&one)
}

fn by_one(one: u128, other: u128) -> bool {
    one.abs_diff(other) == 1
}

fn by_one_of_71_bits(one: u128, other: u128) -> bool {
    by_one(one, other) && one.min(other) >> 70 == 1
}

/// Whether the parts would be others with the posts in another order.
fn another_order(posts: &[Post], order: fn(&[Post]) -> Vec<usize>) -> bool {
    is_cut(posts) && parts_by(posts, &order(posts)) != parts_of(posts)
}

/// By falling (p + s)/h.
fn by_all_grossed_up(posts: &[Post]) -> Vec<usize> {
    in_order(posts, |one, other| {
        let product = |of: &Post, with: &Post| of.pay_in_full() * with.contracted;
        product(other, one).cmp(&product(one, other))
    })
}

/// By falling p + s.
fn by_pay_in_full(posts: &[Post]) -> Vec<usize> {
    in_order(posts, |one, other| {
        other.pay_in_full().cmp(&one.pay_in_full())
    })
}

/// Of two posts of one h the one with the lower pay goes before the other.
fn lower_pay_first(posts: &[Post]) -> bool {
    let before = |one: &Post, other: &Post| {
        one.contracted == other.contracted
            && one.pay < other.pay
            && one.compare_rates(other) == Ordering::Greater
    };
    cut_decides_between(posts, |one, other| before(one, other) || before(other, one))
}

/// Whether all posts of a full list are at the limits of their pays and weeks, so many minutes each.
fn all_at_limits(posts: &[Post], contracted: u64) -> bool {
    let limits = Post::of(&[contracted, 10_080, LARGEST_PAY, LARGEST_PAY]);
    posts.len() == MOST_POSTS && posts.iter().all(|post| *post == limits)
}

/// Whether the aggregate would be another if posts in full counted minutes times rate.
fn full_posts_decide(posts: &[Post]) -> bool {
    rival_aggregate(posts, &parts_of(posts)).number != aggregate(posts).number
}

/// Whether the posts the other way round have another aggregate.
fn order_decides(posts: &[Post]) -> bool {
    let mut turned = posts.to_vec();
    turned.reverse();
    aggregate(&turned).number != aggregate(posts).number
}

/// Whether what a curtailed post counts is, above the line, past 64 bits.
fn past_64_bits(posts: &[Post]) -> bool {
    let full = minutes_together(posts);
    let past = |(post, parts): (&Post, u64)| {
        let number = u128::from(post.rate().0) * u128::from(parts);
        parts < post.contracted * full && number > u64::MAX.into()
    };
    posts.iter().zip(parts_of(posts)).any(past)
}

/// Whether the aggregate of posts with a supplement goes this way.
fn goes(posts: &[Post], way: Way) -> bool {
    has_supplement(posts) && aggregate(posts).way == way
}

/// The classes of accepted lists of posts.
pub const SUPPLEMENT_CLASSES: &[Test<Vec<Post>>] = &[
    ("no supplement", 10_000, |posts| {
        !posts.is_empty() && !has_supplement(posts)
    }),
    ("supplements to some", 5_000, |posts| {
        has_supplement(posts) && !all_have(posts)
    }),
    ("supplements to all", 5_000, |posts| all_have(posts)),
    ("a supplement of 1", 1_000, |posts| has_one_of(posts, 1)),
    ("a supplement of 1,000,000,000", 1_000, |posts| {
        has_one_of(posts, LARGEST_PAY)
    }),
    ("a supplement without pay", 500, |posts| {
        posts.iter().any(|post| post.pay == 0 && supplemented(post))
    }),
    ("a lone whole-time post with a supplement", 200, |posts| {
        posts.len() == 1 && on_whole_time(posts)
    }),
    ("a whole-time post with a supplement", 1_000, |posts| {
        posts.len() > 1 && on_whole_time(posts)
    }),
    ("a supplement beside a whole-time post", 200, |posts| {
        beside_whole_time(posts)
    }),
    ("a full post with a supplement", 2_000, |posts| {
        on_post_with(posts, Had::All)
    }),
    ("a curtailed post with a supplement", 2_000, |posts| {
        on_post_with(posts, Had::Some)
    }),
    ("a post with a supplement and no part", 1_000, |posts| {
        on_post_with(posts, Had::None)
    }),
    (
        "a curtailed post and a full one, both with a supplement",
        1_000,
        |posts| on_post_with(posts, Had::Some) && on_post_with(posts, Had::All),
    ),
    ("no post cut, with a supplement", 1_000, |posts| {
        has_supplement(posts) && !is_cut(posts)
    }),
    (
        "equal rates, the larger supplement first and one cut",
        300,
        |posts| equal_rates(posts, Ordering::Greater),
    ),
    (
        "equal rates, the smaller supplement first and one cut",
        300,
        |posts| equal_rates(posts, Ordering::Less),
    ),
    ("the order of posts decides the aggregate", 500, |posts| {
        order_decides(posts)
    }),
    (
        "products past 64 bits apart in the lower half, the higher first",
        300,
        |posts| near_products(posts, Ordering::Greater, by_lower_half),
    ),
    (
        "products past 64 bits apart in the lower half, the higher later",
        300,
        |posts| near_products(posts, Ordering::Less, by_lower_half),
    ),
    (
        "products that stand against their lower halves, the higher first",
        1_000,
        |posts| near_products(posts, Ordering::Greater, against_lower_half),
    ),
    (
        "products that stand against their lower halves, the higher later",
        1_000,
        |posts| near_products(posts, Ordering::Less, against_lower_half),
    ),
    ("products apart by one, the higher first", 300, |posts| {
        near_products(posts, Ordering::Greater, by_one)
    }),
    ("products apart by one, the higher later", 300, |posts| {
        near_products(posts, Ordering::Less, by_one)
    }),
    (
        "products of 71 bits apart by one, the higher first",
        100,
        |posts| near_products(posts, Ordering::Greater, by_one_of_71_bits),
    ),
    (
        "products of 71 bits apart by one, the higher later",
        100,
        |posts| near_products(posts, Ordering::Less, by_one_of_71_bits),
    ),
    ("a curtailed post's worth past 64 bits", 1_000, |posts| {
        past_64_bits(posts)
    }),
    ("sixteen posts at all limits, cut", 20, |posts| {
        all_at_limits(posts, 10_079)
    }),
    ("sixteen posts at all limits, in full", 20, |posts| {
        all_at_limits(posts, 630)
    }),
    ("sixteen posts at all limits, just cut", 20, |posts| {
        all_at_limits(posts, 631)
    }),
    ("an aggregate above 16,000,000,000", 50, |posts| {
        aggregate(posts).number > MOST_POSTS as u64 * LARGEST_PAY
    }),
    ("parts not by p/h", 1_000, |posts| {
        another_order(posts, by_pay_a_minute)
    }),
    ("parts not by (p + s)/h", 1_000, |posts| {
        has_supplement(posts) && another_order(posts, by_all_grossed_up)
    }),
    ("parts not by p + s", 1_000, |posts| {
        has_supplement(posts) && another_order(posts, by_pay_in_full)
    }),
    ("of one h the lower pay first", 300, |posts| {
        lower_pay_first(posts)
    }),
    ("p + s of full posts decides", 2_000, |posts| {
        full_posts_decide(posts)
    }),
    ("an exact aggregate with a supplement", 1_000, |posts| {
        goes(posts, Way::Exact)
    }),
    ("a supplement and an aggregate gone down", 1_000, |posts| {
        goes(posts, Way::Down)
    }),
    ("a supplement and an aggregate gone up", 1_000, |posts| {
        goes(posts, Way::Up)
    }),
];

/// Whether a year has a supplement and another none.
fn in_some_years(case: &Case) -> bool {
    let mut years = case.years.iter();
    let without = years.any(|year| !year.posts.is_empty() && !has_supplement(&year.posts));
    without && any_year(case, has_supplement)
}

/// The classes of accepted cases.
pub const SUPPLEMENT_CASE_CLASSES: &[Test<Case>] = &[
    ("no supplement", 10_000, |case| {
        !any_year(case, has_supplement)
    }),
    ("a supplement", 20_000, |case| {
        any_year(case, has_supplement)
    }),
    (
        "a year with a supplement and one without",
        10_000,
        in_some_years,
    ),
    ("supplements to all posts of a year", 10_000, |case| {
        any_year(case, all_have)
    }),
    ("a supplement of 1", 1_000, |case| {
        any_year(case, |posts| has_one_of(posts, 1))
    }),
    ("a supplement of 1,000,000,000", 1_000, |case| {
        any_year(case, |posts| has_one_of(posts, LARGEST_PAY))
    }),
    ("a whole-time post with a supplement", 1_000, |case| {
        any_year(case, on_whole_time)
    }),
    (
        "a curtailed post and a full one, both with a supplement",
        1_000,
        |case| {
            any_year(case, |posts| {
                on_post_with(posts, Had::Some) && on_post_with(posts, Had::All)
            })
        },
    ),
    ("the order of posts decides an aggregate", 1_000, |case| {
        any_year(case, order_decides)
    }),
    ("products apart by one, the higher first", 500, |case| {
        any_year(case, |posts| {
            near_products(posts, Ordering::Greater, by_one)
        })
    }),
    ("products apart by one, the higher later", 500, |case| {
        any_year(case, |posts| near_products(posts, Ordering::Less, by_one))
    }),
    ("a year of sixteen posts at all limits", 50, |case| {
        any_year(case, |posts| {
            all_at_limits(posts, 630) || all_at_limits(posts, 10_079)
        })
    }),
    ("p + s of full posts decides", 5_000, |case| {
        any_year(case, full_posts_decide)
    }),
];
