//! A worked text of exactly the largest size, whose last lines take from the pension.

use second::benefits::FinalPay;
use second::calendar::Date;
use second::cases::{Case, Year, MOST_YEARS};
use second::frames::{Debit, Factor, Member};
use second::posts::{Post, MOST_POSTS};
use second::samples::writing::case_text;

/// Lines of 25 and 57 bytes, 50 of 11, and with these 32,768: 786 of 27, 640 of 17 and 2 of 17.
const POSTS: usize = 786;
const FACTORS: [u64; 2] = [600, 40];

fn member() -> Member {
    let on = |year| Date {
        year,
        month: 4,
        day: 1,
    };
    Member {
        birth: on(1970),
        retirement: on(2030),
        section: 1,
        pension_age: 67,
        section_pension_age: 60,
    }
}

fn post(place: usize) -> Post {
    let place = place as u64;
    Post {
        contracted: 120 + 30 * (place % 7),
        whole_time: 2_250 + 30 * (place % 5),
        pay: 150_000 + 1_003 * (place % 97),
        supplement: 7_001 * (place % 4),
    }
}

fn years() -> Vec<Year> {
    let posts: Vec<Post> = (0..POSTS).map(post).collect();
    let mut lists = posts.chunks(MOST_POSTS).map(<[Post]>::to_vec);
    (0..MOST_YEARS as u64)
        .map(|count| Year {
            april: 2015 + count,
            revaluation: 10 * (count % 30),
            posts: lists.next().unwrap_or_default(),
        })
        .collect()
}

fn factors() -> Vec<Factor> {
    let of = |scheme: u64| {
        (1..=FACTORS[scheme as usize]).map(move |months| Factor {
            scheme,
            months,
            pension: 1_000 - months,
            lump_sum: scheme * (1_000 - months / 2),
        })
    };
    of(0).chain(of(1)).collect()
}

/// The text: 50 years, a section with final pay, early by 84 months in the 2015 Scheme, two debits.
pub fn longest_text() -> Vec<u8> {
    let debit = |scheme| Debit {
        scheme,
        pot: 1_000_000,
        factor: 2_020,
    };
    case_text(&Case {
        member: Some(member()),
        years: years(),
        final_pay: Some(FinalPay {
            pays: [3_000_000, 3_100_000, 3_200_000, 4_000_000],
            allowances: [65; 3],
            controls: 7,
            days: 7_300,
            factor: 2_020,
        }),
        ten_pays: None,
        factors: factors(),
        debits: vec![debit(0), debit(1)],
    })
}
