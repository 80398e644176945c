//! Accepted cases with one place damaged.

use super::Damaged;
use crate::cases::Case;
use crate::random::Random;
use crate::samples::accepted::{self, whole_case, whole_case_in};
use crate::samples::writing::{case_text, frames_of, lines_of, text_of};

/// Lines with the place of the damage among them.
pub(super) struct Sheet {
    pub(super) lines: Vec<Vec<u8>>,
    pub(super) place: usize,
}

impl Sheet {
    /// The damaged text; half of the time what follows the damage is replaced by other lines.
    pub(super) fn spoilt(mut self, random: &mut Random) -> Damaged {
        if random.one_in(2) {
            for line in &mut self.lines[self.place + 1..] {
                if random.one_in(2) {
                    *line = any_line(random);
                }
            }
        }
        Damaged {
            text: text_of(&self.lines),
            line: self.place as u64 + 1,
        }
    }
}

/// A line that is likely refused.
pub(super) fn any_line(random: &mut Random) -> Vec<u8> {
    let length = random.between(0, 24);
    (0..length)
        .map(|_| random.pick(b"0123456789ABCDEF01234567 g"))
        .collect()
}

/// Any accepted case's lines and one place among them.
pub(super) fn any_sheet(random: &mut Random) -> Sheet {
    let case = match random.below(6) {
        0 => accepted::largest_case(random),
        1..=2 => accepted::case(random),
        _ => whole_case(random),
    };
    let lines = lines_of(&frames_of(&case));
    let place = random.place(lines.len());
    Sheet { lines, place }
}

/// The places of the frames of a kind.
pub(super) fn places_of(frames: &[Vec<u8>], kind: u8) -> Vec<usize> {
    (0..frames.len())
        .filter(|&place| frames[place][0] == kind)
        .collect()
}

/// A text whose frames are accepted up to the place.
pub(super) fn refused_at(random: &mut Random, frames: &[Vec<u8>], place: usize) -> Damaged {
    let lines = lines_of(frames);
    Sheet { lines, place }.spoilt(random)
}

/// A text with a frame put into an accepted case at the place.
pub(super) fn refused_frame(
    random: &mut Random,
    case: &Case,
    place: usize,
    frame: Vec<u8>,
) -> Damaged {
    let mut frames = frames_of(case);
    frames.insert(place, frame);
    refused_at(random, &frames, place)
}

/// The text of a case that its closing refuses.
pub(super) fn refused_at_end(case: &Case) -> Damaged {
    Damaged {
        text: case_text(case),
        line: 0,
    }
}

/// An accepted case of a member of the section, or without one.
pub(super) fn case_in(random: &mut Random, section: u64) -> Case {
    match section {
        0 => accepted::case_without_section(random),
        _ => whole_case_in(random, section),
    }
}

/// An accepted case with a frame of the kind, in the section whose pays it is or in either.
fn case_with_kind(random: &mut Random, kind: u8) -> Case {
    match kind {
        4 => whole_case_in(random, 1),
        8 => whole_case_in(random, 2),
        _ => whole_case(random),
    }
}

/// A text with a number put into a field of one of the frames of a kind.
pub(super) fn with_field(
    random: &mut Random,
    kind: u8,
    at: usize,
    width: usize,
    number: u64,
) -> Damaged {
    let mut frames = frames_of(&case_with_kind(random, kind));
    let places = places_of(&frames, kind);
    let place = random.pick(&places);
    frames[place][at..at + width].copy_from_slice(&number.to_be_bytes()[8 - width..]);
    refused_at(random, &frames, place)
}

/// A text with one of the frames of a kind cut, or filled up, to so many bytes.
pub(super) fn with_length(random: &mut Random, kind: u8, length: usize) -> Damaged {
    let mut frames = frames_of(&case_with_kind(random, kind));
    let places = places_of(&frames, kind);
    let place = random.pick(&places);
    frames[place].resize(length, 0);
    refused_at(random, &frames, place)
}

/// Takes the pays of its section out of a case.
pub(super) fn without_pays(case: &mut Case) {
    case.final_pay = None;
    case.ten_pays = None;
}

/// A text with a frame of a kind put after one of the frames of another kind, out of order there.
/// Pays are those of the member's section, if they are not put after other pays.
pub(super) fn with_frame_after(random: &mut Random, earlier: u8, kind: u8) -> Damaged {
    let after_pays = [4, 8].contains(&earlier);
    let mut case = case_with_kind(random, if after_pays { earlier } else { kind });
    let mut frame = random_frame(random, kind);
    if random.one_in(2) {
        // The order is tried before the fields.
        for byte in &mut frame[1..] {
            *byte = random.word() as u8;
        }
    }
    if !after_pays && random.one_in(2) {
        without_pays(&mut case);
    }
    let frames = frames_of(&case);
    let places = places_of(&frames, earlier);
    let place = random.pick(&places) + 1;
    refused_frame(random, &case, place, frame)
}

/// A frame of the kind out of some accepted case.
pub(super) fn random_frame(random: &mut Random, kind: u8) -> Vec<u8> {
    let frames = frames_of(&case_with_kind(random, kind));
    let places = places_of(&frames, kind);
    frames[random.pick(&places)].clone()
}
