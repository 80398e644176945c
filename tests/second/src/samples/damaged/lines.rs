//! Refusals 1 to 4: the text, its lines, kinds and lengths, and their order.

use super::sheets::{any_line, any_sheet, case_in, random_frame, refused_frame, without_pays};
use super::{Damaged, BYTE};
use crate::frames::LARGEST_TEXT;
use crate::random::Random;
use crate::samples::accepted::{self, whole_case};
use crate::samples::writing::{case_text, digits, frames_of, member_frame, text_of};

pub(super) fn one_byte_over(random: &mut Random) -> Damaged {
    let mut text = case_text(&accepted::largest_case(random));
    assert_eq!(text.len(), LARGEST_TEXT);
    let place = random.place(text.len());
    text.insert(place, random.pick(b"0F\n "));
    Damaged { text, line: 0 }
}

pub(super) fn far_over(random: &mut Random) -> Damaged {
    let mut text = case_text(&whole_case(random));
    let length = random.between(LARGEST_TEXT as u64 + 1, 60_000) as usize;
    while text.len() < length {
        text.extend(any_line(random));
        text.push(0x0A);
    }
    Damaged { text, line: 0 }
}

pub(super) fn empty_line(random: &mut Random) -> Damaged {
    let mut sheet = any_sheet(random);
    sheet.place = random.place(sheet.lines.len() + 1);
    sheet.lines.insert(sheet.place, Vec::new());
    sheet.spoilt(random)
}

/// Replaces one character of a line, or puts one more in.
fn with_character(random: &mut Random, character: u8) -> Damaged {
    let mut sheet = any_sheet(random);
    let line = &mut sheet.lines[sheet.place];
    let place = random.place(line.len());
    if random.one_in(4) {
        line.insert(place, character);
    } else {
        line[place] = character;
    }
    sheet.spoilt(random)
}

pub(super) fn lower_case(random: &mut Random) -> Damaged {
    let character = random.pick(b"abcdef");
    with_character(random, character)
}

/// Any byte that is no digit and no 0A; neighbours of the digits are common.
fn no_digit(random: &mut Random) -> u8 {
    loop {
        let any = random.word() as u8;
        let byte = random.pick(&[any, any, b'/', b':', b'@', b'G', b' ', 0x0D, 0x00, 0xFF]);
        if byte != 0x0A && !b"0123456789ABCDEF".contains(&byte) {
            return byte;
        }
    }
}

pub(super) fn other_byte(random: &mut Random) -> Damaged {
    let character = no_digit(random);
    with_character(random, character)
}

pub(super) fn other_byte_far_on(random: &mut Random) -> Damaged {
    let mut sheet = any_sheet(random);
    let more = random.between(1, 400);
    let line = &mut sheet.lines[sheet.place];
    line.extend((0..more).map(|_| random.pick(b"0123456789ABCDEF")));
    let byte = no_digit(random);
    line.push(byte);
    if random.one_in(2) {
        line.push(b'0');
    }
    sheet.spoilt(random)
}

pub(super) fn odd_count(random: &mut Random) -> Damaged {
    let mut sheet = any_sheet(random);
    let line = &mut sheet.lines[sheet.place];
    if random.one_in(2) {
        line.pop();
    } else {
        line.push(random.pick(b"0123456789ABCDEF"));
    }
    sheet.spoilt(random)
}

pub(super) fn odd_unknown(random: &mut Random) -> Damaged {
    let mut sheet = any_sheet(random);
    let line = &mut sheet.lines[sheet.place];
    line[0] = random.pick(b"123456789ABCDEF");
    line.pop();
    sheet.spoilt(random)
}

pub(super) fn no_end(random: &mut Random) -> Damaged {
    let mut lines = any_sheet(random).lines;
    if random.one_in(2) {
        let length = random.place(lines.len()) + 1;
        lines.truncate(length);
    }
    if random.one_in(3) {
        // The end is tried before kind, length, order and fields.
        let length = random.between(1, 20);
        let last: Vec<u8> = (0..length).map(|_| random.word() as u8).collect();
        *lines.last_mut().expect("a line") = digits(&last);
    }
    let mut text = text_of(&lines);
    text.pop();
    Damaged {
        text,
        line: lines.len() as u64,
    }
}

pub(super) fn unknown_kind(random: &mut Random) -> Damaged {
    let mut sheet = any_sheet(random);
    let above = random.near_ends(9, BYTE) as u8;
    let kind = random.pick(&[0, 7, above, above]);
    sheet.lines[sheet.place][..2].copy_from_slice(&digits(&[kind]));
    sheet.spoilt(random)
}

pub(super) fn byte_less(random: &mut Random) -> Damaged {
    let mut sheet = any_sheet(random);
    let line = &mut sheet.lines[sheet.place];
    line.truncate(line.len() - 2);
    sheet.spoilt(random)
}

pub(super) fn byte_more(random: &mut Random) -> Damaged {
    let mut sheet = any_sheet(random);
    sheet.lines[sheet.place].extend(b"00");
    sheet.spoilt(random)
}

pub(super) fn kind_alone(random: &mut Random) -> Damaged {
    let mut sheet = any_sheet(random);
    sheet.lines[sheet.place].truncate(2);
    sheet.spoilt(random)
}

pub(super) fn far_too_long(random: &mut Random) -> Damaged {
    let mut sheet = any_sheet(random);
    let more = 2 * random.near_ends(2, 3_000);
    let line = &mut sheet.lines[sheet.place];
    line.extend((0..more).map(|_| random.pick(b"0123456789ABCDEF")));
    sheet.spoilt(random)
}

pub(super) fn length_and_order(random: &mut Random) -> Damaged {
    let case = whole_case(random);
    let mut frame = member_frame(&case.member.expect("a member"));
    if random.one_in(2) {
        frame.pop();
    } else {
        frame.push(0);
    }
    let place = random.place(frames_of(&case).len()) + 1;
    refused_frame(random, &case, place, frame)
}

pub(super) fn empty_text(_: &mut Random) -> Damaged {
    Damaged {
        text: Vec::new(),
        line: 0,
    }
}

pub(super) fn no_member_first(random: &mut Random) -> Damaged {
    let kind = random.between(2, 6) as u8;
    first_of_kind(random, kind)
}

pub(super) fn ten_pays_first(random: &mut Random) -> Damaged {
    first_of_kind(random, 8)
}

/// A text whose first frame is of the kind, and no 01.
fn first_of_kind(random: &mut Random, kind: u8) -> Damaged {
    let frame = random_frame(random, kind);
    let mut case = whole_case(random);
    if random.one_in(2) {
        case.member = None;
    }
    refused_frame(random, &case, 0, frame)
}

pub(super) fn pays_of_other_section(
    random: &mut Random,
    kind: u8,
    section: u64,
    past: bool,
) -> Damaged {
    let mut case = case_in(random, section);
    without_pays(&mut case);
    let mut frame = random_frame(random, kind);
    if past {
        // The order is tried before the fields.
        frame[1] = 0xFF;
    }
    let before_factors = frames_of(&case).len() - case.factors.len() - case.debits.len();
    let place = random.between(1, before_factors as u64) as usize;
    refused_frame(random, &case, place, frame)
}
