//! Inputs of the calls apart: posts, charge, dates and abatement.

use crate::benefits::FinalPay;
use crate::calendar::{month_length, Date};
use crate::posts::{Post, MOST_POSTS, POST_BYTES};
use crate::random::Random;
use crate::samples::accepted;
use crate::samples::writing::post_records;
use crate::LARGEST_PAY;

/// The largest amount of the abatement call.
const LARGEST_AMOUNT: u64 = 1_000_000_000_000;

/// A posts call: the bytes and the number of lent places.
pub struct PostsCall {
    pub bytes: Vec<u8>,
    pub places: usize,
}

/// Posts that are accepted, with enough places.
pub fn posts_call(random: &mut Random) -> PostsCall {
    let posts = accepted::post_list(random);
    let spare = random.pick(&[0, 0, 1, 3, 20]);
    PostsCall {
        places: posts.len() + spare,
        bytes: post_records(&posts),
    }
}

/// Posts with some bytes changed, and about as many places as posts.
pub fn any_posts_call(random: &mut Random) -> PostsCall {
    let mut bytes = posts_call(random).bytes;
    for _ in 0..random.between(1, 4) {
        if !bytes.is_empty() {
            let place = random.place(bytes.len());
            let any = random.word() as u8;
            bytes[place] = random.pick(&[0, 1, 0x27, 0x3B, 0x60, 0x61, any]);
        }
    }
    let length = bytes.len() + random.pick(&[0, 0, 0, 0, 0, 1, 8, POST_BYTES]);
    bytes.resize(length, 1);
    PostsCall {
        places: (bytes.len() / POST_BYTES + random.place(3)).saturating_sub(random.place(2)),
        bytes,
    }
}

/// A cause of refusal of a call and how to make an input with it.
pub struct CallCause<Input> {
    pub refusal: u64,
    pub words: &'static str,
    pub make: fn(&mut Random) -> Input,
}

pub(super) const fn cause<Input>(
    refusal: u64,
    words: &'static str,
    make: fn(&mut Random) -> Input,
) -> CallCause<Input> {
    CallCause {
        refusal,
        words,
        make,
    }
}

pub const POSTS_CAUSES: &[CallCause<PostsCall>] = &[
    cause(23, "a length no multiple of 12", no_multiple),
    cause(23, "posts of 8 bytes", posts_of_8_bytes),
    cause(23, "23 before 21 and 22", no_multiple_and_many),
    cause(21, "over 16 posts", many_posts),
    cause(21, "21 before 22 and 7", many_bad_posts),
    cause(22, "too few places", few_places),
    cause(22, "22 before 7", few_places_and_bad),
    cause(7, "h = 0", |random| {
        bad_post(random, |_, post| post.contracted = 0)
    }),
    cause(7, "h above w", |random| bad_post(random, hours_past_week)),
    cause(7, "w above 10,080", |random| bad_post(random, long_week)),
    cause(7, "p too large", |random| bad_post(random, large_pay)),
    cause(7, "s too large", |random| {
        bad_post(random, large_supplement)
    }),
    cause(7, "s of 1,000,000,001", |random| {
        bad_post(random, |_, post| post.supplement = LARGEST_PAY + 1)
    }),
    cause(7, "s of 4,294,967,295", |random| {
        bad_post(random, |_, post| post.supplement = 0xFFFF_FFFF)
    }),
    cause(7, "s too large for a post of no pay", |random| {
        bad_post(random, |random, post| {
            post.pay = 0;
            large_supplement(random, post);
        })
    }),
    cause(7, "s too large for a whole-time post", |random| {
        bad_post(random, |random, post| {
            post.contracted = post.whole_time;
            large_supplement(random, post);
        })
    }),
    cause(7, "7 of an earlier post before 8", seven_first),
    cause(7, "7 before 8: s too large", |random| {
        let mut posts = two_whole_time(random);
        for post in &mut posts[1..] {
            large_supplement(random, post);
        }
        call_of(random, &posts)
    }),
    cause(8, "a second whole-time post", eight),
    cause(8, "8 before 7 of a later post", eight_first),
];

/// Posts of a list with at least so many of them.
fn posts_of_at_least(random: &mut Random, least: usize) -> Vec<Post> {
    loop {
        let posts = accepted::post_list(random);
        if posts.len() >= least {
            return posts;
        }
    }
}

/// A call of posts with some spare places.
fn call_of(random: &mut Random, posts: &[Post]) -> PostsCall {
    PostsCall {
        bytes: post_records(posts),
        places: posts.len() + random.pick(&[0, 1, 4]),
    }
}

fn no_multiple(random: &mut Random) -> PostsCall {
    let mut call = posts_call(random);
    let more = random.between(1, POST_BYTES as u64 - 1);
    call.bytes.extend((0..more).map(|_| random.word() as u8));
    call.places += random.pick(&[0, 1]);
    call
}

/// Posts of the earlier length, so many that their bytes are a multiple of 8 and not of 12.
fn posts_of_8_bytes(random: &mut Random) -> PostsCall {
    let posts = posts_of_at_least(random, 1);
    if posts.len() % 3 == 0 {
        return posts_of_8_bytes(random);
    }
    let mut call = call_of(random, &posts);
    let records = call.bytes.chunks(POST_BYTES);
    call.bytes = records.flat_map(|post| post[..8].to_vec()).collect();
    call
}

fn no_multiple_and_many(random: &mut Random) -> PostsCall {
    let posts = POST_BYTES as u64 * random.near_ends(16, 40);
    let length = posts + random.between(1, POST_BYTES as u64 - 1);
    PostsCall {
        bytes: (0..length).map(|_| random.word() as u8).collect(),
        places: random.between(0, 50) as usize,
    }
}

fn many_posts(random: &mut Random) -> PostsCall {
    let count = random.near_ends(MOST_POSTS as u64 + 1, 60);
    let posts: Vec<Post> = (0..count)
        .flat_map(|_| accepted::small_posts(random, 1, 2_000, LARGEST_PAY))
        .collect();
    call_of(random, &posts)
}

fn many_bad_posts(random: &mut Random) -> PostsCall {
    let length = POST_BYTES as u64 * random.near_ends(MOST_POSTS as u64 + 1, 60);
    PostsCall {
        bytes: (0..length).map(|_| random.word() as u8).collect(),
        places: random.between(0, 70) as usize,
    }
}

fn few_places(random: &mut Random) -> PostsCall {
    let mut call = posts_call(random);
    let count = call.bytes.len() / POST_BYTES;
    if count == 0 {
        return few_places(random);
    }
    call.places = random.near_ends(0, count as u64 - 1) as usize;
    call
}

fn few_places_and_bad(random: &mut Random) -> PostsCall {
    let mut call = few_places(random);
    call.bytes[..2].fill(0);
    call
}

/// A list with one post made bad.
fn bad_post(random: &mut Random, spoil: fn(&mut Random, &mut Post)) -> PostsCall {
    let mut posts = posts_of_at_least(random, 1);
    let place = random.place(posts.len());
    spoil(random, &mut posts[place]);
    call_of(random, &posts)
}

fn hours_past_week(random: &mut Random, post: &mut Post) {
    let past = random.between(post.whole_time + 1, 0xFFFF);
    post.contracted = random.pick(&[post.whole_time + 1, past]);
}

fn long_week(random: &mut Random, post: &mut Post) {
    post.whole_time = random.near_ends(10_081, 0xFFFF);
}

fn large_pay(random: &mut Random, post: &mut Post) {
    post.pay = random.near_ends(LARGEST_PAY + 1, 0xFFFF_FFFF);
}

fn large_supplement(random: &mut Random, post: &mut Post) {
    post.supplement = random.near_ends(LARGEST_PAY + 1, 0xFFFF_FFFF);
}

/// Three posts, two of which are whole-time.
fn two_whole_time(random: &mut Random) -> Vec<Post> {
    let mut posts: Vec<Post> = (0..3)
        .flat_map(|_| accepted::small_posts(random, 1, 2_000, LARGEST_PAY))
        .collect();
    let part_time = random.place(3);
    for (place, post) in posts.iter_mut().enumerate() {
        if place != part_time {
            post.contracted = post.whole_time;
        }
    }
    posts
}

fn eight(random: &mut Random) -> PostsCall {
    let posts = two_whole_time(random);
    call_of(random, &posts)
}

fn eight_first(random: &mut Random) -> PostsCall {
    let mut posts = two_whole_time(random);
    let mut bad = posts[0];
    large_pay(random, &mut bad);
    posts.push(bad);
    call_of(random, &posts)
}

fn seven_first(random: &mut Random) -> PostsCall {
    let mut posts = two_whole_time(random);
    let mut bad = posts[2];
    bad.contracted = 0;
    posts.insert(2, bad);
    if !posts[2..].iter().any(Post::is_whole_time) {
        return seven_first(random);
    }
    call_of(random, &posts)
}

/// A number past a limit: by one, by a power of two that a narrower number would lose, or any.
pub(super) fn past(random: &mut Random, limit: u64) -> u64 {
    let small = random.between(1, limit);
    let narrow = (1u64 << random.pick(&[16, 32, 40, 48, 56, 63])) + small;
    let any = random.between(limit + 1, u64::MAX);
    let past = random.pick(&[limit + 1, limit + 1, narrow, narrow, any, u64::MAX]);
    past.max(limit + 1)
}

/// Numbers of a call with some of them put beside a limit of theirs, within or past it.
pub(super) fn beside_limits<const COUNT: usize>(
    random: &mut Random,
    mut call: [u64; COUNT],
    limits: &[(u64, u64); COUNT],
) -> [u64; COUNT] {
    for _ in 0..random.between(1, 3) {
        let place = random.place(COUNT);
        let (low, high) = limits[place];
        let below = low.saturating_sub(1);
        call[place] = random.pick(&[below, low, low + 1, high - 1, high, high + 1]);
    }
    call
}

/// The ten numbers of a charge call: pays 4 to 1, allowances 3 to 1, controls, days, factor.
pub type ChargeCall = [u64; 10];

/// The least and the largest of a pay, and of an allowance or price increase.
pub(super) const PAYS: (u64, u64) = (0, LARGEST_PAY);
pub(super) const ALLOWANCES: (u64, u64) = (0, 1_000);

/// The least and the largest of each number of an 04.
pub(super) const CHARGE_LIMITS: [(u64, u64); 10] = [
    PAYS,
    PAYS,
    PAYS,
    PAYS,
    ALLOWANCES,
    ALLOWANCES,
    ALLOWANCES,
    (0, 7),
    (0, 16_425),
    (1, 10_000),
];

/// The ten numbers of an 04.
pub(super) fn numbers_of(given: &FinalPay) -> ChargeCall {
    let mut call = [0; 10];
    call[..4].copy_from_slice(&given.pays);
    call[4..7].copy_from_slice(&given.allowances);
    call[7..].copy_from_slice(&[given.controls, given.days, given.factor]);
    call
}

/// A charge call that is accepted.
pub fn charge_call(random: &mut Random) -> ChargeCall {
    numbers_of(&accepted::final_pay(random))
}

/// A charge call with numbers at their limits.
pub fn any_charge_call(random: &mut Random) -> ChargeCall {
    let call = charge_call(random);
    beside_limits(random, call, &CHARGE_LIMITS)
}

pub const CHARGE_CAUSES: &[CallCause<ChargeCall>] = &[
    cause(9, "pay 4 too large", |random| {
        bad_charge(random, 0, LARGEST_PAY)
    }),
    cause(9, "pay 3 too large", |random| {
        bad_charge(random, 1, LARGEST_PAY)
    }),
    cause(9, "pay 2 too large", |random| {
        bad_charge(random, 2, LARGEST_PAY)
    }),
    cause(9, "pay 1 too large", |random| {
        bad_charge(random, 3, LARGEST_PAY)
    }),
    cause(9, "allowance 3 above 1,000", |random| {
        bad_charge(random, 4, 1_000)
    }),
    cause(9, "allowance 2 above 1,000", |random| {
        bad_charge(random, 5, 1_000)
    }),
    cause(9, "allowance 1 above 1,000", |random| {
        bad_charge(random, 6, 1_000)
    }),
    cause(9, "controls above 7", |random| bad_charge(random, 7, 7)),
    cause(9, "days above 16,425", |random| {
        bad_charge(random, 8, 16_425)
    }),
    cause(9, "factor above 10,000", |random| {
        bad_charge(random, 9, 10_000)
    }),
    cause(9, "factor 0", |random| {
        let mut call = charge_call(random);
        call[9] = 0;
        call
    }),
];

fn bad_charge(random: &mut Random, place: usize, limit: u64) -> ChargeCall {
    let mut call = charge_call(random);
    call[place] = past(random, limit);
    call
}

/// The numbers of a dates call: birth, retirement (year, month, day each) and pension age.
pub type DatesCall = [u64; 7];

fn dates(birth: Date, retirement: Date, pension_age: u64) -> DatesCall {
    [
        birth.year,
        birth.month,
        birth.day,
        retirement.year,
        retirement.month,
        retirement.day,
        pension_age,
    ]
}

/// Any date from 1900 to 2100, leap days and last days common.
fn any_date(random: &mut Random) -> Date {
    if random.one_in(10) {
        return Date {
            year: 4 * random.between(476, 524),
            month: 2,
            day: 29,
        };
    }
    let year = random.near_ends(1900, 2100);
    let month = random.between(1, 12);
    if random.one_in(4) {
        return accepted::end_of(random, year, month);
    }
    accepted::date_in(random, year, month)
}

/// A dates call that is accepted: some of any dates, some of one month, at ends of months or near
/// a pension age.
pub fn dates_call(random: &mut Random) -> DatesCall {
    let pension_age = random.near_ends(55, 75);
    if random.one_in(2) {
        let member = accepted::member(random, 0);
        return dates(member.birth, member.retirement, member.pension_age);
    }
    if random.one_in(4) {
        let year = random.near_ends(1900, 2098);
        let months = random.between(1, 12 * (2099 - year));
        let (birth, retirement) = accepted::dates_at_ends(random, year, months);
        return dates(birth, retirement, pension_age);
    }
    let (one, mut other) = (any_date(random), any_date(random));
    if random.one_in(8) {
        other = accepted::date_in(random, one.year, one.month);
    }
    let key = |date: &Date| (date.year, date.month, date.day);
    if key(&one) <= key(&other) {
        dates(one, other, pension_age)
    } else {
        dates(other, one, pension_age)
    }
}

/// A dates call with numbers at their limits.
pub fn any_dates_call(random: &mut Random) -> DatesCall {
    let call = dates_call(random);
    let limits = [
        (1900, 2100),
        (1, 12),
        (1, 30),
        (1900, 2100),
        (1, 12),
        (1, 30),
        (55, 75),
    ];
    beside_limits(random, call, &limits)
}

/// Every day number from 0 to 32 of the months 0 to 13 of the years 1898 to 2102, once as birth
/// and once as retirement.
pub fn every_day() -> impl Iterator<Item = DatesCall> {
    let days = (1898..=2102).flat_map(|year| {
        (0..=13).flat_map(move |month| (0..=32).map(move |day| [year, month, day]))
    });
    days.flat_map(|[year, month, day]| {
        [
            [year, month, day, 2100, 12, 31, 60],
            [1900, 1, 1, year, month, day, 60],
        ]
    })
}

/// Births on every day of January to March 1972, each with a retirement on every day of 2031, of
/// 2032, which is a leap year, and of 2100, which is none.
pub fn every_birth_day() -> impl Iterator<Item = DatesCall> {
    let days_of = |year: u64, months: u64| {
        (1..=months).flat_map(move |month| {
            (1..=month_length(year, month)).map(move |day| Date { year, month, day })
        })
    };
    days_of(1972, 3).flat_map(move |birth| {
        [2031, 2032, 2100]
            .into_iter()
            .flat_map(move |year| days_of(year, 12))
            .map(move |retirement| dates(birth, retirement, 60))
    })
}

pub const DATES_CAUSES: &[CallCause<DatesCall>] = &[
    cause(5, "birth year too early", |random| {
        low_date(random, 0, 1899)
    }),
    cause(5, "birth year too late", |random| {
        high_date(random, 0, 2100)
    }),
    cause(5, "birth month 0", |random| low_date(random, 1, 0)),
    cause(5, "birth month above 12", |random| high_date(random, 1, 12)),
    cause(5, "birth day 0", |random| low_date(random, 2, 0)),
    cause(5, "birth day past its month", |random| {
        past_month(random, 0)
    }),
    cause(5, "retirement year too early", |random| {
        low_date(random, 3, 1899)
    }),
    cause(5, "retirement year too late", |random| {
        high_date(random, 3, 2100)
    }),
    cause(5, "retirement month 0", |random| low_date(random, 4, 0)),
    cause(5, "retirement month above 12", |random| {
        high_date(random, 4, 12)
    }),
    cause(5, "retirement day 0", |random| low_date(random, 5, 0)),
    cause(5, "retirement day past its month", |random| {
        past_month(random, 3)
    }),
    cause(5, "29 February of a common year", no_leap_day),
    cause(5, "retirement before birth", before_birth),
    cause(5, "pension age below 55", |random| low_date(random, 6, 54)),
    cause(5, "pension age above 75", |random| high_date(random, 6, 75)),
];

/// A dates call with a number up to the limit put in a place.
fn low_date(random: &mut Random, place: usize, limit: u64) -> DatesCall {
    let mut call = dates_call(random);
    call[place] = random.near_ends(0, limit);
    call
}

/// A dates call with a number past the limit put in a place.
fn high_date(random: &mut Random, place: usize, limit: u64) -> DatesCall {
    let mut call = dates_call(random);
    call[place] = past(random, limit);
    call
}

/// A dates call whose day is past its month, where its date begins in the place.
fn past_month(random: &mut Random, place: usize) -> DatesCall {
    let mut call = dates_call(random);
    let length = month_length(call[place], call[place + 1]);
    call[place + 2] = past(random, length);
    call
}

fn no_leap_day(random: &mut Random) -> DatesCall {
    let mut call = dates_call(random);
    let place = random.pick(&[0, 3]);
    let year = random.near_ends(1900, 2100);
    if month_length(year, 2) == 29 {
        return no_leap_day(random);
    }
    call[place..place + 3].copy_from_slice(&[year, 2, 29]);
    if place == 0 {
        call[3..6].copy_from_slice(&[2100, 12, 31]);
    } else {
        call[..3].copy_from_slice(&[1900, 1, 1]);
    }
    call
}

fn before_birth(random: &mut Random) -> DatesCall {
    let call = dates_call(random);
    let (birth, retirement) = (&call[..3], &call[3..6]);
    if birth == retirement {
        return before_birth(random);
    }
    let mut turned = call;
    turned[..3].copy_from_slice(retirement);
    turned[3..6].copy_from_slice(birth);
    turned
}

/// The numbers of an abatement call: pension, earned pension, previous pay, new pay.
pub type AbatementCall = [u64; 4];

/// An abatement call that is accepted; the ends of the reduction are common.
pub fn abatement_call(random: &mut Random) -> AbatementCall {
    let top = random.of_any_size(LARGEST_AMOUNT);
    let pension = random.near_ends(0, top);
    let earned = random.near_ends(0, pension);
    let previous_pay = random.near_ends(0, top);
    let enhancement = pension - earned;
    let none = (previous_pay + random.below(3)).saturating_sub(enhancement + 1);
    let whole = (previous_pay + random.below(3)).saturating_sub(1);
    let any = random.near_ends(0, top);
    let within = previous_pay.saturating_sub(random.between(0, enhancement));
    let new_pay = random.pick(&[none, whole, any, within]);
    [pension, earned, previous_pay, new_pay.min(LARGEST_AMOUNT)]
}

/// An abatement call with numbers at their limits.
pub fn any_abatement_call(random: &mut Random) -> AbatementCall {
    let call = abatement_call(random);
    beside_limits(random, call, &[(0, LARGEST_AMOUNT); 4])
}

pub const ABATEMENT_CAUSES: &[CallCause<AbatementCall>] = &[
    cause(24, "pension too large", |random| bad_abatement(random, 0)),
    cause(24, "earned pension too large", |random| {
        bad_abatement(random, 1)
    }),
    cause(24, "previous pay too large", |random| {
        bad_abatement(random, 2)
    }),
    cause(24, "new pay too large", |random| bad_abatement(random, 3)),
    cause(24, "24 before 25", |random| {
        let mut call = earned_past_pension(random);
        let place = random.pick(&[1, 2, 3]);
        call[place] = past(random, LARGEST_AMOUNT);
        call
    }),
    cause(25, "earned above pension", earned_past_pension),
];

fn bad_abatement(random: &mut Random, place: usize) -> AbatementCall {
    let mut call = abatement_call(random);
    call[place] = past(random, LARGEST_AMOUNT);
    call
}

fn earned_past_pension(random: &mut Random) -> AbatementCall {
    let mut call = abatement_call(random);
    call[0] = call[0].min(LARGEST_AMOUNT - 1);
    call[1] = random.near_ends(call[0] + 1, LARGEST_AMOUNT);
    call
}
