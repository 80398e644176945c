//! Inputs of the call of a change of employer.

use crate::employers::{Change, PartYear, MOST_DAYS};
use crate::random::Random;
use crate::samples::accepted;
use crate::samples::calls::{
    beside_limits, cause, numbers_of, past, CallCause, ALLOWANCES, CHARGE_LIMITS, PAYS,
};
use crate::wide::rounded;
use crate::LARGEST_PAY;

/// The numbers of a change of employer: those of an 04, old pay and days, new pay and days, price
/// increase.
pub type ChangeCall = [u64; 15];

/// The places of both employers' pays and days and of the price increase.
const OLD_PAY: usize = 10;
const OLD_DAYS: usize = 11;
const NEW_PAY: usize = 12;
const NEW_DAYS: usize = 13;
const PRICE_INCREASE: usize = 14;

/// The least and the largest of the days with one employer.
const DAYS: (u64, u64) = (1, MOST_DAYS);

/// The least and the largest of each number.
fn limits() -> [(u64, u64); 15] {
    let mut limits = [PAYS; 15];
    limits[..10].copy_from_slice(&CHARGE_LIMITS);
    limits[OLD_DAYS] = DAYS;
    limits[NEW_DAYS] = DAYS;
    limits[PRICE_INCREASE] = ALLOWANCES;
    limits
}

fn numbers(change: &Change) -> ChangeCall {
    let mut call = [0; 15];
    call[..10].copy_from_slice(&numbers_of(&change.final_pay));
    call[OLD_PAY] = change.old.pay;
    call[OLD_DAYS] = change.old.days;
    call[NEW_PAY] = change.new.pay;
    call[NEW_DAYS] = change.new.days;
    call[PRICE_INCREASE] = change.price_increase;
    call
}

/// The days with each employer: together often a whole year, one of them often a day or half a year.
fn days(random: &mut Random) -> [u64; 2] {
    let any = random.between(2, MOST_DAYS);
    let together = random.pick(&[any, MOST_DAYS, MOST_DAYS - 1]);
    let any = random.between(1, together - 1);
    let one = random.pick(&[any, 1, (together + 1) / 2]);
    let mut days = [one, together - one];
    random.shuffle(&mut days);
    days
}

/// A pay of so many days: any, or one that comes to about an amount a year, or within the yearly
/// amounts that are charged. Some come to a half when annualised.
fn part_year(random: &mut Random, about: u64, charged: (u64, u64), days: u64) -> PartYear {
    let of_year = |amount: u64| amount * days / 365;
    let any = random.of_any_size(LARGEST_PAY);
    let any_near = of_year(random.between(0, 2 * about));
    let about = (of_year(about) + random.below(3)).saturating_sub(1);
    let charged = of_year(random.between(charged.0, charged.1));
    let mut pay = random.pick(&[any, any_near, about, charged, charged]);
    if days % 2 == 0 && random.one_in(2) {
        // An odd number of pence for each two days.
        let pairs = days / 2;
        pay = (pay / pairs / 2 * 2 + 1) * pairs;
    }
    PartYear {
        pay: pay.min(LARGEST_PAY),
        days,
    }
}

/// Thousandths of an amount that come to a half, where there are such.
fn thousandths_to_a_half(random: &mut Random, amount: u64) -> Option<u64> {
    let to_a_half = |part: &u64| amount * part % 1_000 == 500;
    let parts: Vec<u64> = (0..=1_000).filter(to_a_half).collect();
    (!parts.is_empty()).then(|| random.pick(&parts))
}

fn put_half_in_raised_excess(random: &mut Random, change: &mut Change) {
    let excess = change.unraised_excess(change.old.annualised());
    if let Some(part) = thousandths_to_a_half(random, excess) {
        change.price_increase = part;
    }
}

/// Puts a half into the new employer's allowed pay, and pay 1 above it where limits let it be.
fn put_half_in_new_allowed(random: &mut Random, change: &mut Change) {
    let annualised = change.new.annualised();
    if let Some(part) = thousandths_to_a_half(random, annualised) {
        change.final_pay.allowances[2] = part;
        let above = change.new_allowed(annualised) + random.of_any_size(LARGEST_PAY);
        if (change.final_pay.pay(1)..=LARGEST_PAY).contains(&above) {
            change.final_pay.pays[3] = above;
        }
    }
}

/// A change that is accepted.
pub fn change_call(random: &mut Random) -> ChangeCall {
    let mut final_pay = accepted::final_pay(random);
    // Year 1 gets the highest pay; another year that has it too keeps it.
    let highest = 4 - final_pay.final_year();
    final_pay.pays.swap(highest, 3);
    let [old_days, new_days] = days(random);
    let allowed = final_pay.allowed(2);
    let old = part_year(random, allowed, (allowed, 3 * allowed), old_days);
    let without_rise = rounded(
        u128::from(final_pay.pay(1)) * 1_000,
        u128::from(1_000 + final_pay.allowances[2]),
    );
    let mut new = part_year(random, without_rise, (0, without_rise), new_days);
    if random.one_in(6) {
        // Both employers' pays make pay 2, unless the old one's is above it.
        new.pay = final_pay.pay(2).saturating_sub(old.pay);
    }
    let mut change = Change {
        final_pay,
        old,
        new,
        price_increase: random.near_ends(0, 1_000),
    };
    match random.below(3) {
        0 => put_half_in_raised_excess(random, &mut change),
        1 => put_half_in_new_allowed(random, &mut change),
        _ => {}
    }
    numbers(&change)
}

/// A change with numbers at their limits, the days of both employers together too.
pub fn any_change_call(random: &mut Random) -> ChangeCall {
    let call = change_call(random);
    let mut call = beside_limits(random, call, &limits());
    if random.one_in(4) {
        call[NEW_DAYS] = MOST_DAYS.saturating_sub(call[OLD_DAYS]) + random.below(2);
    }
    call
}

pub const CHANGE_CAUSES: &[CallCause<ChangeCall>] = &[
    cause(9, "pay 4 too large", |random| too_large(random, 0)),
    cause(9, "pay 3 too large", |random| too_large(random, 1)),
    cause(9, "pay 2 too large", |random| too_large(random, 2)),
    cause(9, "pay 1 too large", |random| too_large(random, 3)),
    cause(9, "allowance 3 above 1,000", |random| too_large(random, 4)),
    cause(9, "allowance 2 above 1,000", |random| too_large(random, 5)),
    cause(9, "allowance 1 above 1,000", |random| too_large(random, 6)),
    cause(9, "controls above 7", |random| too_large(random, 7)),
    cause(9, "days above 16,425", |random| too_large(random, 8)),
    cause(9, "factor above 10,000", |random| too_large(random, 9)),
    cause(9, "factor 0", |random| {
        let mut call = change_call(random);
        call[9] = 0;
        call
    }),
    cause(9, "old pay too large", |random| too_large(random, OLD_PAY)),
    cause(9, "new pay too large", |random| too_large(random, NEW_PAY)),
    cause(9, "price increase above 1,000", |random| {
        too_large(random, PRICE_INCREASE)
    }),
    cause(9, "9 before 26", nine_first),
    cause(26, "old days 0", no_old_days),
    cause(26, "new days 0", no_new_days),
    cause(26, "both days 0", |random| with_days(random, 0, 0)),
    cause(26, "old days above 366", |random| {
        let (old_days, new_days) = (past(random, MOST_DAYS), random.between(1, MOST_DAYS));
        with_days(random, old_days, new_days)
    }),
    cause(26, "new days above 366", |random| {
        let (old_days, new_days) = (random.between(1, MOST_DAYS), past(random, MOST_DAYS));
        with_days(random, old_days, new_days)
    }),
    cause(26, "days above 366 without pay", many_days_without_pay),
    cause(26, "367 days together", days_367),
    cause(26, "more than 366 days together", |random| {
        let old_days = random.near_ends(1, MOST_DAYS);
        let new_days = random.near_ends(MOST_DAYS + 1 - old_days, MOST_DAYS);
        with_days(random, old_days, new_days)
    }),
    cause(26, "days whose sum begins again at 2^64", sum_past_64_bits),
    cause(26, "final pay of year 2", final_pay_of_year_2),
    cause(26, "final pay of year 3", final_pay_of_year_3),
];

/// A change with the number in a place past its limit.
fn too_large(random: &mut Random, place: usize) -> ChangeCall {
    let mut call = change_call(random);
    put_past_limit(random, &mut call, place);
    call
}

fn put_past_limit(random: &mut Random, call: &mut ChangeCall, place: usize) {
    let (_, largest) = limits()[place];
    call[place] = past(random, largest);
}

fn with_days(random: &mut Random, old_days: u64, new_days: u64) -> ChangeCall {
    let mut call = change_call(random);
    call[OLD_DAYS] = old_days;
    call[NEW_DAYS] = new_days;
    call
}

fn no_old_days(random: &mut Random) -> ChangeCall {
    let days = random.near_ends(1, MOST_DAYS);
    with_days(random, 0, days)
}

fn no_new_days(random: &mut Random) -> ChangeCall {
    let days = random.near_ends(1, MOST_DAYS);
    with_days(random, days, 0)
}

fn many_days_without_pay(random: &mut Random) -> ChangeCall {
    let mut call = change_call(random);
    let (pay, days) = random.pick(&[(OLD_PAY, OLD_DAYS), (NEW_PAY, NEW_DAYS)]);
    call[pay] = 0;
    call[days] = past(random, MOST_DAYS);
    call
}

fn days_367(random: &mut Random) -> ChangeCall {
    let days = random.near_ends(1, MOST_DAYS);
    with_days(random, days, MOST_DAYS + 1 - days)
}

/// Days whose sum in 64 bits is at most 366.
fn sum_past_64_bits(random: &mut Random) -> ChangeCall {
    let sum = random.near_ends(0, MOST_DAYS);
    let days = random.near_ends(sum + 1, u64::MAX);
    with_days(random, days, sum.wrapping_sub(days))
}

fn final_pay_of_year_2(random: &mut Random) -> ChangeCall {
    let mut call = change_call(random);
    call[3] = call[3].min(LARGEST_PAY - 1);
    call[2] = random.near_ends(call[3] + 1, LARGEST_PAY);
    call[1] = random.near_ends(0, call[2]);
    call
}

fn final_pay_of_year_3(random: &mut Random) -> ChangeCall {
    let mut call = change_call(random);
    call[3] = call[3].min(LARGEST_PAY - 1);
    call[1] = random.near_ends(call[3] + 1, LARGEST_PAY);
    call[2] = random.near_ends(0, call[1] - 1);
    call
}

fn nine_first(random: &mut Random) -> ChangeCall {
    let of_26: [fn(&mut Random) -> ChangeCall; 6] = [
        no_old_days,
        no_new_days,
        days_367,
        sum_past_64_bits,
        final_pay_of_year_2,
        final_pay_of_year_3,
    ];
    let mut call = random.pick(&of_26)(random);
    // A pay 1 past its limit would be final pay.
    let place = random.pick(&[0, 1, 2, 4, 5, 6, 7, 8, 9, OLD_PAY, NEW_PAY, PRICE_INCREASE]);
    put_past_limit(random, &mut call, place);
    call
}
