//! Texts that are refused, by every cause that document 01 and requests 2.4, 2.5 and 2.7 name.

mod closing;
mod fields;
mod lines;
pub mod mixed;
mod sheets;

use crate::frames::LARGEST_TEXT;
use crate::random::Random;
use crate::LARGEST_PAY;

/// A text with the line at which it is to be refused, 0 for none.
pub struct Damaged {
    pub text: Vec<u8>,
    pub line: u64,
}

/// A cause of refusal and how to make a text with it.
pub struct Cause {
    pub refusal: u64,
    pub words: &'static str,
    way: Way,
}

/// How a text is damaged.
enum Way {
    /// A number from low to high is put into a field of a frame of the kind.
    Field {
        kind: u8,
        at: usize,
        width: usize,
        low: u64,
        high: u64,
    },
    /// A frame of the kind is cut, or filled up, to so many bytes.
    Length { kind: u8, length: usize },
    /// A frame of the kind is put after one of another kind.
    After { earlier: u8, kind: u8 },
    /// The pays of the kind stand with a section that has no such pays, within their limits or past.
    Section { kind: u8, section: u64, past: bool },
    /// A member of the section has a number from low to high for its pension age.
    Age { section: u64, low: u64, high: u64 },
    /// By a function of its own.
    Own(fn(&mut Random) -> Damaged),
}

impl Cause {
    /// A text with this cause and no earlier one.
    pub fn damaged(&self, random: &mut Random) -> Damaged {
        loop {
            let damaged = self.made(random);
            if self.refusal == 1 || damaged.text.len() <= LARGEST_TEXT {
                return damaged;
            }
        }
    }

    fn made(&self, random: &mut Random) -> Damaged {
        match self.way {
            Way::Field {
                kind,
                at,
                width,
                low,
                high,
            } => {
                let number = random.near_ends(low, high);
                sheets::with_field(random, kind, at, width, number)
            }
            Way::Length { kind, length } => sheets::with_length(random, kind, length),
            Way::After { earlier, kind } => sheets::with_frame_after(random, earlier, kind),
            Way::Section {
                kind,
                section,
                past,
            } => lines::pays_of_other_section(random, kind, section, past),
            Way::Age { section, low, high } => {
                let number = random.near_ends(low, high);
                fields::other_age(random, section, number)
            }
            Way::Own(make) => make(random),
        }
    }
}

const fn field(
    refusal: u64,
    words: &'static str,
    (kind, at, width): (u8, usize, usize),
    (low, high): (u64, u64),
) -> Cause {
    let way = Way::Field {
        kind,
        at,
        width,
        low,
        high,
    };
    Cause {
        refusal,
        words,
        way,
    }
}

const fn length(words: &'static str, kind: u8, length: usize) -> Cause {
    Cause {
        refusal: 3,
        words,
        way: Way::Length { kind, length },
    }
}

const fn section(words: &'static str, kind: u8, section: u64, past: bool) -> Cause {
    Cause {
        refusal: 4,
        words,
        way: Way::Section {
            kind,
            section,
            past,
        },
    }
}

const fn age(words: &'static str, section: u64, (low, high): (u64, u64)) -> Cause {
    Cause {
        refusal: 28,
        words,
        way: Way::Age { section, low, high },
    }
}

const fn after(words: &'static str, earlier: u8, kind: u8) -> Cause {
    Cause {
        refusal: 4,
        words,
        way: Way::After { earlier, kind },
    }
}

const fn own(refusal: u64, words: &'static str, make: fn(&mut Random) -> Damaged) -> Cause {
    Cause {
        refusal,
        words,
        way: Way::Own(make),
    }
}

/// The highest numbers of one, two and four bytes.
const BYTE: u64 = 0xFF;
const PAIR: u64 = 0xFFFF;
const FOUR: u64 = 0xFFFF_FFFF;

/// The first number past a pay, supplement or pot.
const PAST_PAY: u64 = LARGEST_PAY + 1;

/// Every cause that document 01 names, in its order, those of requests 2.4, 2.5 and 2.7 among them.
pub const CAUSES: &[Cause] = &[
    own(1, "a text one byte over", lines::one_byte_over),
    own(1, "a text far over", lines::far_over),
    own(2, "an empty line", lines::empty_line),
    own(2, "a lower-case letter", lines::lower_case),
    own(2, "another byte", lines::other_byte),
    own(
        2,
        "another byte in a line too long",
        lines::other_byte_far_on,
    ),
    own(2, "an odd digit count", lines::odd_count),
    own(
        2,
        "an odd digit count of an unknown kind",
        lines::odd_unknown,
    ),
    own(2, "no final 0A", lines::no_end),
    own(3, "an unknown kind", lines::unknown_kind),
    own(3, "one byte too few", lines::byte_less),
    own(3, "one byte too many", lines::byte_more),
    own(3, "the kind alone", lines::kind_alone),
    own(3, "a line far too long", lines::far_too_long),
    own(3, "a wrong length out of order", lines::length_and_order),
    length("01 of the earlier length", 1, 11),
    length("01 of 13 bytes", 1, 13),
    own(
        3,
        "01 of the earlier length, of section 3",
        fields::earlier_length_of_section_3,
    ),
    length("03 of the earlier length", 3, 9),
    length("03 of 12 bytes", 3, 12),
    length("03 of 14 bytes", 3, 14),
    own(
        3,
        "03 of the earlier length, of h = 0",
        fields::earlier_length_of_no_minutes,
    ),
    length("08 of 42 bytes", 8, 42),
    length("08 of 44 bytes", 8, 44),
    length("08 as long as an 04", 8, 28),
    length("08 as long as an 05", 8, 8),
    length("04 as long as an 08", 4, 43),
    own(4, "an empty text", lines::empty_text),
    own(4, "a first frame that is no 01", lines::no_member_first),
    own(4, "a first frame that is an 08", lines::ten_pays_first),
    after("a second 01 after 01", 1, 1),
    after("a second 01 after 02", 2, 1),
    after("a second 01 after 03", 3, 1),
    after("a second 01 after 04", 4, 1),
    after("a second 01 after 05", 5, 1),
    after("a second 01 after 06", 6, 1),
    after("a second 01 after 08", 8, 1),
    after("03 before any 02", 1, 3),
    after("02 after 04", 4, 2),
    after("02 after 05", 5, 2),
    after("02 after 06", 6, 2),
    after("02 after 08", 8, 2),
    after("03 after 04", 4, 3),
    after("03 after 05", 5, 3),
    after("03 after 06", 6, 3),
    after("03 after 08", 8, 3),
    after("a second 04", 4, 4),
    after("04 after 05", 5, 4),
    after("04 after 06", 6, 4),
    after("04 after 08", 8, 4),
    after("08 after 04", 4, 8),
    after("08 after 05", 5, 8),
    after("08 after 06", 6, 8),
    after("a second 08", 8, 8),
    after("05 after 06", 6, 5),
    section("04 without section", 4, 0, false),
    section("04 without section, past its limits", 4, 0, true),
    section("04 with section 2", 4, 2, false),
    section("04 with section 2, past its limits", 4, 2, true),
    section("08 without section", 8, 0, false),
    section("08 without section, past its limits", 8, 0, true),
    section("08 with section 1", 8, 1, false),
    section("08 with section 1, past its limits", 8, 1, true),
    field(5, "birth year too early", (1, 1, 2), (0, 1899)),
    field(5, "birth year too late", (1, 1, 2), (2101, PAIR)),
    field(5, "birth month 0", (1, 3, 1), (0, 0)),
    field(5, "birth month above 12", (1, 3, 1), (13, BYTE)),
    field(5, "birth day 0", (1, 4, 1), (0, 0)),
    field(5, "birth day above 31", (1, 4, 1), (32, BYTE)),
    own(5, "birth day past its month", fields::birth_past_month),
    field(5, "retirement year too early", (1, 5, 2), (0, 1899)),
    field(5, "retirement year too late", (1, 5, 2), (2101, PAIR)),
    field(5, "retirement month 0", (1, 7, 1), (0, 0)),
    field(5, "retirement month above 12", (1, 7, 1), (13, BYTE)),
    field(5, "retirement day 0", (1, 8, 1), (0, 0)),
    field(5, "retirement day above 31", (1, 8, 1), (32, BYTE)),
    own(
        5,
        "retirement day past its month",
        fields::retirement_past_month,
    ),
    own(5, "29 February of a common year", fields::no_leap_day),
    own(5, "retirement days before birth", fields::before_birth_day),
    own(
        5,
        "retirement months before birth",
        fields::before_birth_month,
    ),
    own(
        5,
        "retirement years before birth",
        fields::before_birth_year,
    ),
    field(5, "section above 2", (1, 9, 1), (3, BYTE)),
    field(5, "pension age below 55", (1, 10, 1), (0, 54)),
    field(5, "pension age above 75", (1, 10, 1), (76, BYTE)),
    own(5, "5 before 28: birth", fields::birth_and_age),
    own(5, "5 before 28: retirement", fields::retirement_and_age),
    own(5, "5 before 28: order of dates", fields::dates_and_age),
    own(5, "5 before 28: pension age", fields::own_age_and_age),
    own(5, "5 before 28: section", fields::section_and_age),
    age("section 0 with 60", 0, (60, 60)),
    age("section 0 with 65", 0, (65, 65)),
    age("section 0 with any other age", 0, (1, BYTE)),
    age("section 1 with 0", 1, (0, 0)),
    age("section 1 with 65", 1, (65, 65)),
    age("section 1 with a lower age", 1, (0, 59)),
    age("section 1 with a higher age", 1, (61, BYTE)),
    age("section 2 with 0", 2, (0, 0)),
    age("section 2 with 60", 2, (60, 60)),
    age("section 2 with a lower age", 2, (0, 64)),
    age("section 2 with a higher age", 2, (66, BYTE)),
    age("255 without section", 0, (BYTE, BYTE)),
    age("255 with section 1", 1, (BYTE, BYTE)),
    age("255 with section 2", 2, (BYTE, BYTE)),
    own(28, "the member's own age", fields::own_age_twice),
    own(4, "4 before 28", fields::second_member_of_other_age),
    field(6, "April year below 2015", (2, 1, 2), (0, 2014)),
    field(6, "April year above 2100", (2, 1, 2), (2101, PAIR)),
    own(6, "the April year before again", fields::same_year),
    own(6, "an April year left out", fields::year_left_out),
    own(6, "an April year of before", fields::earlier_year),
    own(6, "April year 2101 after 2100", fields::year_2101),
    field(6, "revaluation above 2,000", (2, 3, 2), (2_001, PAIR)),
    own(6, "a 51st year", fields::fifty_first_year),
    field(7, "h = 0", (3, 1, 2), (0, 0)),
    own(7, "h above w", fields::hours_past_week),
    field(7, "w above 10,080", (3, 3, 2), (10_081, PAIR)),
    field(7, "p too large", (3, 5, 4), (PAST_PAY, FOUR)),
    field(7, "s too large", (3, 9, 4), (PAST_PAY, FOUR)),
    field(7, "s of 1,000,000,001", (3, 9, 4), (PAST_PAY, PAST_PAY)),
    field(7, "s of 4,294,967,295", (3, 9, 4), (FOUR, FOUR)),
    own(7, "a 17th post", fields::seventeenth_post),
    own(7, "7 before 8: p too large", fields::seven_before_eight),
    own(
        7,
        "7 before 8: s too large",
        fields::supplement_before_eight,
    ),
    own(7, "7 before 8: a 17th post", fields::seventeenth_whole_time),
    own(8, "a second whole-time post", fields::second_whole_time),
    field(9, "pay 4 too large", (4, 1, 4), (PAST_PAY, FOUR)),
    field(9, "pay 3 too large", (4, 5, 4), (PAST_PAY, FOUR)),
    field(9, "pay 2 too large", (4, 9, 4), (PAST_PAY, FOUR)),
    field(9, "pay 1 too large", (4, 13, 4), (PAST_PAY, FOUR)),
    field(9, "allowance 3 above 1,000", (4, 17, 2), (1_001, PAIR)),
    field(9, "allowance 2 above 1,000", (4, 19, 2), (1_001, PAIR)),
    field(9, "allowance 1 above 1,000", (4, 21, 2), (1_001, PAIR)),
    field(9, "controls above 7", (4, 23, 1), (8, BYTE)),
    field(9, "days above 16,425", (4, 24, 2), (16_426, PAIR)),
    field(9, "factor 0", (4, 26, 2), (0, 0)),
    field(9, "factor above 10,000", (4, 26, 2), (10_001, PAIR)),
    field(27, "pay 10 too large", (8, 1, 4), (PAST_PAY, FOUR)),
    field(27, "pay 9 too large", (8, 5, 4), (PAST_PAY, FOUR)),
    field(27, "pay 8 too large", (8, 9, 4), (PAST_PAY, FOUR)),
    field(27, "pay 7 too large", (8, 13, 4), (PAST_PAY, FOUR)),
    field(27, "pay 6 too large", (8, 17, 4), (PAST_PAY, FOUR)),
    field(27, "pay 5 too large", (8, 21, 4), (PAST_PAY, FOUR)),
    field(27, "pay 4 too large", (8, 25, 4), (PAST_PAY, FOUR)),
    field(27, "pay 3 too large", (8, 29, 4), (PAST_PAY, FOUR)),
    field(27, "pay 2 too large", (8, 33, 4), (PAST_PAY, FOUR)),
    field(27, "pay 1 too large", (8, 37, 4), (PAST_PAY, FOUR)),
    field(27, "days above 16,425", (8, 41, 2), (16_426, PAIR)),
    field(10, "scheme above 1", (5, 1, 1), (2, BYTE)),
    own(
        10,
        "scheme 1 without section",
        fields::factor_without_section,
    ),
    field(10, "months 0", (5, 2, 2), (0, 0)),
    field(10, "months above 600", (5, 2, 2), (601, PAIR)),
    field(10, "pension factor above 1,000", (5, 4, 2), (1_001, PAIR)),
    own(10, "lump factor above 1,000", fields::lump_factor_1995),
    own(
        10,
        "lump factor not 0 for scheme 0",
        fields::lump_factor_2015,
    ),
    own(
        10,
        "lump factor not 0 for section 2",
        fields::lump_factor_2008,
    ),
    own(10, "the months before again", fields::same_months),
    own(10, "earlier months of the scheme", fields::earlier_months),
    own(10, "scheme 0 after scheme 1", fields::factor_scheme_back),
    field(11, "scheme above 1", (6, 1, 1), (2, BYTE)),
    own(
        11,
        "scheme 1 without section",
        fields::debit_without_section,
    ),
    field(11, "pot too large", (6, 2, 4), (PAST_PAY, FOUR)),
    field(11, "factor 0", (6, 6, 2), (0, 0)),
    own(11, "the scheme before again", fields::same_scheme),
    own(11, "scheme 0 after scheme 1", fields::debit_scheme_back),
    own(12, "section 1 without 04", closing::no_final_pay),
    own(12, "section 2 without 08", closing::no_ten_pays),
    own(12, "12 before 13 and 14", closing::twelve_first),
    own(13, "no factor of the 2015 Scheme", closing::no_factor_2015),
    own(13, "no factor of the 1995 Section", closing::no_factor_1995),
    own(13, "no factor of the 2008 Section", closing::no_factor_2008),
    own(
        13,
        "the factor to 60 alone in the 2008 Section",
        closing::factor_to_60,
    ),
    own(
        13,
        "no factor of the 2008 Section between 60 and 65",
        closing::no_factor_past_60,
    ),
    own(13, "no factor of either", closing::no_factor),
    own(
        13,
        "no factor for a pension of 0",
        closing::no_factor_of_nought,
    ),
    own(
        13,
        "the factor of the day numbers' months alone",
        closing::factor_of_day_numbers,
    ),
    own(13, "months early above 600", closing::too_early),
    own(13, "13 before 14", closing::thirteen_first),
    own(
        14,
        "a debit above the 2015 pension",
        closing::debit_past_2015,
    ),
    own(
        14,
        "a debit above the 1995 pension",
        closing::debit_past_1995,
    ),
    own(
        14,
        "a debit above the lump sum alone",
        closing::debit_past_lump_sum,
    ),
    own(
        14,
        "a debit above the 2008 pension",
        closing::debit_past_2008,
    ),
];
