//! The engine's calls through its C interface.

use crate::Outcome;

#[repr(C)]
struct Figure {
    refusal: u64,
    number: u64,
}

#[repr(C)]
struct Months {
    refusal: u64,
    months: i64,
}

#[repr(C)]
struct Charges {
    refusal: u64,
    old_charge: u64,
    new_charge: u64,
}

#[repr(C)]
struct CaseOutcome {
    refusal: u64,
    line: u64,
    net_2015: u64,
    net_1995: u64,
    net_lump_sum: u64,
    charge: u64,
    rounded_up: u64,
}

extern "C" {
    fn canyonsieve_posts(posts: *const u8, length: usize, parts: *mut u64, places: usize)
        -> Figure;
    fn canyonsieve_charge(
        pay4: u64,
        pay3: u64,
        pay2: u64,
        pay1: u64,
        allowance3: u64,
        allowance2: u64,
        allowance1: u64,
        controls: u64,
        days: u64,
        factor: u64,
    ) -> Figure;
    fn canyonsieve_months_early(
        birth_year: u64,
        birth_month: u64,
        birth_day: u64,
        retirement_year: u64,
        retirement_month: u64,
        retirement_day: u64,
        pension_age: u64,
    ) -> Months;
    fn canyonsieve_abatement(pension: u64, earned: u64, previous_pay: u64, new_pay: u64) -> Figure;
    fn canyonsieve_change_of_employer(
        pay4: u64,
        pay3: u64,
        pay2: u64,
        pay1: u64,
        allowance3: u64,
        allowance2: u64,
        allowance1: u64,
        controls: u64,
        days: u64,
        factor: u64,
        old_pay: u64,
        old_days: u64,
        new_pay: u64,
        new_days: u64,
        price_increase: u64,
    ) -> Charges;
    fn canyonsieve_case(text: *const u8, length: usize) -> CaseOutcome;
}

/// The engine's posts call. Without bytes or without places it is given no address at all.
pub fn posts(bytes: &[u8], places: &mut [u64]) -> (u64, u64) {
    let posts = if bytes.is_empty() {
        std::ptr::null()
    } else {
        bytes.as_ptr()
    };
    let parts = if places.is_empty() {
        std::ptr::null_mut()
    } else {
        places.as_mut_ptr()
    };
    // SAFETY: the lengths are those of the slices, which do not overlap.
    let figure = unsafe { canyonsieve_posts(posts, bytes.len(), parts, places.len()) };
    (figure.refusal, figure.number)
}

/// The engine's charge call.
pub fn charge(call: &[u64; 10]) -> (u64, u64) {
    let [pay4, pay3, pay2, pay1, allowance3, allowance2, allowance1, controls, days, factor] =
        *call;
    // SAFETY: numbers only.
    let figure = unsafe {
        canyonsieve_charge(
            pay4, pay3, pay2, pay1, allowance3, allowance2, allowance1, controls, days, factor,
        )
    };
    (figure.refusal, figure.number)
}

/// The engine's dates call.
pub fn months_early(call: &[u64; 7]) -> (u64, i64) {
    let [year, month, day, retirement_year, retirement_month, retirement_day, pension_age] = *call;
    // SAFETY: numbers only.
    let given = unsafe {
        canyonsieve_months_early(
            year,
            month,
            day,
            retirement_year,
            retirement_month,
            retirement_day,
            pension_age,
        )
    };
    (given.refusal, given.months)
}

/// The engine's abatement call.
pub fn abatement(call: &[u64; 4]) -> (u64, u64) {
    let [pension, earned, previous_pay, new_pay] = *call;
    // SAFETY: numbers only.
    let figure = unsafe { canyonsieve_abatement(pension, earned, previous_pay, new_pay) };
    (figure.refusal, figure.number)
}

/// The engine's call of a change of employer.
pub fn change_of_employer(call: &[u64; 15]) -> (u64, (u64, u64)) {
    let [pay4, pay3, pay2, pay1, allowance3, allowance2, allowance1, rest @ ..] = *call;
    let [controls, days, factor, old_pay, old_days, new_pay, new_days, price_increase] = rest;
    // SAFETY: numbers only.
    let given = unsafe {
        canyonsieve_change_of_employer(
            pay4,
            pay3,
            pay2,
            pay1,
            allowance3,
            allowance2,
            allowance1,
            controls,
            days,
            factor,
            old_pay,
            old_days,
            new_pay,
            new_days,
            price_increase,
        )
    };
    (given.refusal, (given.old_charge, given.new_charge))
}

/// The engine's case call.
pub fn case(text: &[u8]) -> Outcome {
    let bytes = if text.is_empty() {
        std::ptr::null()
    } else {
        text.as_ptr()
    };
    // SAFETY: the length is that of the slice.
    let given = unsafe { canyonsieve_case(bytes, text.len()) };
    Outcome {
        refusal: given.refusal,
        line: given.line,
        net_2015: given.net_2015,
        net_1995: given.net_1995,
        net_lump_sum: given.net_lump_sum,
        charge: given.charge,
        rounded_up: given.rounded_up,
    }
}
