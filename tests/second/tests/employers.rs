//! A change of employer: example 3 of source document 000, and figures for the sentences of request
//! 2.1.

use second::{change_of_employer, charge};

const REFUSED: (u64, u64) = (0, 0);

/// The example: £35,000 in 181 days, then £45,000 in 184, with prices up by 2%.
const EXAMPLE: [u64; 15] = [
    5_900_000, 6_000_000, 8_000_000, 9_750_000, 65, 65, 65, 7, 11_680, 2_020, 3_500_000, 181,
    4_500_000, 184, 20,
];
const EXAMPLE_CHARGES: (u64, u64) = (6_323_114, 2_256_339);

/// Nothing paid before year 1, year 2 alone controlled. Half of an excess is its pension, and four
/// times that its charge.
const NOTHING_BEFORE: [u64; 15] = [
    0, 0, 0, 1_000_000, 0, 0, 0, 2, 14_600, 100, 0, 1, 1_000_000, 1, 0,
];

/// The places of numbers.
const PAY_3: usize = 1;
const PAY_2: usize = 2;
const PAY_1: usize = 3;
const CONTROLS: usize = 7;
const SERVICE_DAYS: usize = 8;
const OLD_PAY: usize = 10;
const OLD_DAYS: usize = 11;
const NEW_PAY: usize = 12;
const NEW_DAYS: usize = 13;
const PRICE_INCREASE: usize = 14;

/// What a call gives with numbers put in places.
fn with(mut call: [u64; 15], changed: &[(usize, u64)]) -> (u64, (u64, u64)) {
    for &(place, number) in changed {
        call[place] = number;
    }
    change_of_employer(&call)
}

fn example_with(changed: &[(usize, u64)]) -> (u64, (u64, u64)) {
    with(EXAMPLE, changed)
}

#[test]
fn the_example() {
    assert_eq!(change_of_employer(&EXAMPLE), (0, EXAMPLE_CHARGES));
    let of_04: [u64; 10] = EXAMPLE[..10].try_into().expect("ten numbers");
    assert_eq!(charge(&of_04), (0, 27_326_352));
}

#[test]
fn a_year_has_365_days() {
    let given = example_with(&[(NEW_DAYS, 185)]);
    assert_eq!(given, (0, (6_323_114, 2_733_215)));
}

#[test]
fn halves_go_up() {
    let given = |changed: &[(usize, u64)]| with(NOTHING_BEFORE, changed);
    // 182.5 annualised.
    let changed = [(OLD_PAY, 1), (OLD_DAYS, 2), (NEW_DAYS, 300)];
    assert_eq!(given(&changed), (0, (368, 0)));
    // An excess of 3 raised to 4.5, and to 4.497.
    let changed = [(OLD_PAY, 3), (OLD_DAYS, 365), (PRICE_INCREASE, 500)];
    assert_eq!(given(&changed), (0, (12, 0)));
    let changed = [(OLD_PAY, 3), (OLD_DAYS, 365), (PRICE_INCREASE, 499)];
    assert_eq!(given(&changed), (0, (8, 0)));
}

#[test]
fn the_new_employers_allowed_pay_is_rounded() {
    // 1 penny and a half of it may be paid in year 1: 2 pence.
    let call = [0, 0, 0, 4, 0, 0, 500, 7, 14_600, 100, 0, 1, 1, 365, 0];
    assert_eq!(change_of_employer(&call), (0, (0, 4)));
    let given = with(call, &[(PAY_1, 3), (SERVICE_DAYS, 11_680)]);
    assert_eq!(given, (0, (0, 0)));
}

#[test]
fn an_excess_is_not_below_nought() {
    let given = example_with(&[(OLD_PAY, 3_000_000), (NEW_PAY, 9_000_000)]);
    assert_eq!(given, (0, (0, 0)));
}

#[test]
fn controls() {
    let (old, new) = EXAMPLE_CHARGES;
    let charges = [
        (0, 0),
        (0, 0),
        (old, 0),
        (old, 0),
        (0, new),
        (0, new),
        (old, new),
        (old, new),
    ];
    for (controls, charges) in (0..).zip(charges) {
        assert_eq!(example_with(&[(CONTROLS, controls)]), (0, charges));
    }
}

#[test]
fn nine_is_tried_first() {
    assert_eq!(example_with(&[(PRICE_INCREASE, 1_000)]).0, 0);
    assert_eq!(example_with(&[(PRICE_INCREASE, 1_001)]), (9, REFUSED));
    for (pay, days) in [(OLD_PAY, OLD_DAYS), (NEW_PAY, NEW_DAYS)] {
        assert_eq!(example_with(&[(pay, 1_000_000_000)]).0, 0);
        assert_eq!(example_with(&[(pay, 1_000_000_001)]), (9, REFUSED));
        let given = example_with(&[(pay, 1_000_000_001), (days, 0)]);
        assert_eq!(given, (9, REFUSED));
    }
}

#[test]
fn the_days_of_both_employers() {
    let days = |old, new| example_with(&[(OLD_DAYS, old), (NEW_DAYS, new)]);
    assert_eq!(days(0, 184), (26, REFUSED));
    assert_eq!(days(181, 0), (26, REFUSED));
    assert_eq!(days(181, 185).0, 0);
    assert_eq!(days(182, 185), (26, REFUSED));
    assert_eq!(days(u64::MAX, 2), (26, REFUSED));
    assert_eq!(days(2, u64::MAX), (26, REFUSED));
    let given = example_with(&[(OLD_PAY, 0), (OLD_DAYS, 367)]);
    assert_eq!(given, (26, REFUSED));
}

#[test]
fn final_pay_is_that_of_year_1() {
    for year in [PAY_3, PAY_2] {
        assert_eq!(example_with(&[(year, 9_750_000)]).0, 0);
        assert_eq!(example_with(&[(year, 9_750_001)]), (26, REFUSED));
    }
    let given = example_with(&[(PAY_2, 9_750_000)]);
    assert_eq!(given, (0, EXAMPLE_CHARGES));
}

#[test]
fn the_largest_charges() {
    let largest = 1_000_000_000;
    let call = [
        0, 0, 0, largest, 0, 0, 0, 7, 16_425, 10_000, largest, 1, 0, 1, 1_000,
    ];
    let charges = (42_294_375_000_000, 57_937_500_000);
    assert_eq!(change_of_employer(&call), (0, charges));
}
