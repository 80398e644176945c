//! The classes of accepted changes of employer.

use crate::classes::Test;
use second::employers::{raised, Change, PartYear};
use second::LARGEST_PAY;

/// The charges of the old and of the new employer.
fn charges(call: &[u64; 15]) -> (u64, u64) {
    Change::of(call).charges()
}

/// Whether an annualised pay is a half before it is rounded.
fn is_half(part_year: &PartYear) -> bool {
    2 * (part_year.pay * 365 % part_year.days) == part_year.days
}

/// Whether the annualised old pay is a half that would give another charge if it went down.
fn half_in_old_pay(call: &[u64; 15]) -> bool {
    let change = Change::of(call);
    let annualised = change.old.annualised();
    is_half(&change.old) && change.old_charge(annualised - 1) != change.old_charge(annualised)
}

fn half_in_new_pay(call: &[u64; 15]) -> bool {
    let change = Change::of(call);
    let annualised = change.new.annualised();
    is_half(&change.new) && change.new_charge(annualised - 1) != change.new_charge(annualised)
}

fn half_in_raised_excess(call: &[u64; 15]) -> bool {
    let change = Change::of(call);
    let excess = change.unraised_excess(change.old.annualised());
    let raised = raised(excess, change.price_increase);
    excess * change.price_increase % 1_000 == 500
        && change.charge_in(2, raised - 1) != change.charge_in(2, raised)
}

fn half_in_new_allowed(call: &[u64; 15]) -> bool {
    let change = Change::of(call);
    let annualised = change.new.annualised();
    let allowed = change.new_allowed(annualised);
    let excess = change.final_pay.pay(1).checked_sub(allowed);
    let another = |excess| change.charge_in(1, excess + 1) != change.charge_in(1, excess);
    annualised * change.final_pay.allowances[2] % 1_000 == 500 && excess.map_or(false, another)
}

fn price_increase_decides(call: &[u64; 15]) -> bool {
    let mut without = Change::of(call);
    without.price_increase = 0;
    without.charges() != charges(call)
}

/// Whether the control of year 3, which acts on allowed year 2 alone, decides the old charge.
fn year_3_decides(call: &[u64; 15]) -> bool {
    let mut other = Change::of(call);
    other.final_pay.controls ^= 1;
    other.charges() != charges(call)
}

/// Whether the old, and whether the new charge would be another by a year of 366 days.
fn leap_year_decides(call: &[u64; 15]) -> (bool, bool) {
    let change = Change::of(call);
    let (old, new) = change.charges();
    (
        change.old_charge(change.old.pay_of(366)) != old,
        change.new_charge(change.new.pay_of(366)) != new,
    )
}

/// Whether pay 2, in the place of the new employer's annualised pay, would give another charge.
fn pay_2_decides(call: &[u64; 15]) -> bool {
    let change = Change::of(call);
    change.new_charge(change.final_pay.pay(2)) != change.charges().1
}

/// The classes of accepted changes of employer.
pub const CHANGE_CLASSES: &[Test<[u64; 15]>] = &[
    ("controls 0", 1_000, |call| call[7] == 0),
    ("controls 1", 1_000, |call| call[7] == 1),
    ("controls 2", 1_000, |call| call[7] == 2),
    ("controls 3", 1_000, |call| call[7] == 3),
    ("controls 4", 1_000, |call| call[7] == 4),
    ("controls 5", 1_000, |call| call[7] == 5),
    ("controls 6", 1_000, |call| call[7] == 6),
    ("controls 7", 1_000, |call| call[7] == 7),
    ("both charged", 1_000, |call| {
        charges(call).0 > 0 && charges(call).1 > 0
    }),
    ("the old employer alone charged", 1_000, |call| {
        charges(call).0 > 0 && charges(call).1 == 0
    }),
    ("the new employer alone charged", 1_000, |call| {
        charges(call).0 == 0 && charges(call).1 > 0
    }),
    ("none charged", 1_000, |call| charges(call) == (0, 0)),
    ("365 days together", 1_000, |call| {
        call[11] + call[13] == 365
    }),
    ("366 days together", 1_000, |call| {
        call[11] + call[13] == 366
    }),
    ("1 day with the old employer", 1_000, |call| call[11] == 1),
    ("1 day with the new employer", 1_000, |call| call[13] == 1),
    ("183 days with the old employer", 1_000, |call| {
        call[11] == 183
    }),
    ("183 days with the new employer", 1_000, |call| {
        call[13] == 183
    }),
    ("both employers' pays make pay 2", 1_000, |call| {
        call[2] > 0 && call[10] + call[12] == call[2]
    }),
    ("pays of years 2 and 1 equal", 1_000, |call| {
        call[3] > 0 && call[2] == call[3]
    }),
    ("pays of years 3 and 1 equal", 1_000, |call| {
        call[3] > 0 && call[1] == call[3]
    }),
    ("price increase 0", 1_000, |call| call[14] == 0),
    ("price increase 1,000", 1_000, |call| call[14] == 1_000),
    (
        "a half in the annualised old pay that decides",
        500,
        half_in_old_pay,
    ),
    (
        "a half in the annualised new pay that decides",
        500,
        half_in_new_pay,
    ),
    (
        "a half in the raised excess that decides",
        500,
        half_in_raised_excess,
    ),
    (
        "a half in the new employer's allowed pay that decides",
        500,
        half_in_new_allowed,
    ),
    ("an annualised old pay above 1,000,000,000", 300, |call| {
        Change::of(call).old.annualised() > LARGEST_PAY
    }),
    ("an annualised new pay above 1,000,000,000", 300, |call| {
        Change::of(call).new.annualised() > LARGEST_PAY
    }),
    (
        "a price increase that decides",
        1_000,
        price_increase_decides,
    ),
    ("a control of year 3 that decides", 1_000, year_3_decides),
    ("365 days, not 366, decide the old charge", 1_000, |call| {
        leap_year_decides(call).0
    }),
    ("365 days, not 366, decide the new charge", 1_000, |call| {
        leap_year_decides(call).1
    }),
    (
        "an annualised pay, not pay 2, decides the new charge",
        1_000,
        pay_2_decides,
    ),
];
