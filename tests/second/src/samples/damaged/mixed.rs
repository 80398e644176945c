//! Texts damaged without a cause named.

use crate::random::Random;
use crate::samples::accepted::{self, whole_case_in};
use crate::samples::writing::{case_text, frames_of, lines_of, text_of};

/// Every text that differs from a short accepted one in one byte, and every beginning of it: one in
/// each section, with every kind of frame that may stand there.
pub fn one_byte_changed(random: &mut Random) -> Vec<Vec<u8>> {
    let sections = [1, 2].into_iter();
    sections
        .flat_map(|section| one_byte_changed_in(random, section))
        .collect()
}

fn one_byte_changed_in(random: &mut Random, section: u64) -> Vec<Vec<u8>> {
    let mut case = whole_case_in(random, section);
    case.years.truncate(1);
    case.years[0].posts.truncate(1);
    for debit in &mut case.debits {
        debit.pot = 0;
    }
    let text = case_text(&case);
    let changed = (0..text.len()).flat_map(|place| {
        let text = &text;
        (0..=0xFF).map(move |byte| {
            let mut changed = text.clone();
            changed[place] = byte;
            changed
        })
    });
    let beginnings = (0..text.len()).map(|length| text[..length].to_vec());
    changed.chain(beginnings).collect()
}

/// An accepted text with a few random changes.
pub fn random_damage(random: &mut Random) -> Vec<u8> {
    let mut text = case_text(&accepted::case(random));
    for _ in 0..random.between(1, 3) {
        if text.is_empty() {
            return text;
        }
        let place = random.place(text.len());
        match random.below(12) {
            0 => text[place] = random.word() as u8,
            1 => text.insert(place, random.word() as u8),
            2 => text.insert(place, random.pick(b"0123456789ABCDEF\n")),
            3 => drop(text.remove(place)),
            4 => text.truncate(place),
            5 => text = with_lines_moved(random, &text),
            _ => text[place] = random.pick(b"0123456789ABCDEF"),
        }
    }
    text
}

/// The text with two lines changed for one another, one said twice, or one left out.
fn with_lines_moved(random: &mut Random, text: &[u8]) -> Vec<u8> {
    let mut lines: Vec<Vec<u8>> = text
        .split_inclusive(|&byte| byte == 0x0A)
        .map(<[u8]>::to_vec)
        .collect();
    let (one, other) = (random.place(lines.len()), random.place(lines.len()));
    match random.below(3) {
        0 => lines.swap(one, other),
        1 => lines.insert(one, lines[other].clone()),
        _ => drop(lines.remove(one)),
    }
    lines.concat()
}

/// A text of frames of several cases in any order, mostly with an 01 first.
pub fn mixed_frames(random: &mut Random) -> Vec<u8> {
    let mut frames: Vec<Vec<u8>> = Vec::new();
    for _ in 0..random.between(1, 2) {
        frames.extend(frames_of(&accepted::case(random)));
    }
    let member = frames[0].clone();
    random.shuffle(&mut frames);
    frames.truncate(12);
    if random.below(4) != 0 {
        frames.retain(|frame| frame[0] != 0x01);
        frames.insert(0, member);
    }
    if random.one_in(2) {
        // By kind, so that only fields are out of order.
        let place = |kind: u8| if kind == 8 { 4 } else { kind.max(3) };
        frames.sort_by_key(|frame| place(frame[0]));
        frames.sort_by_key(|frame| frame[0] != 0x01);
    }
    text_of(&lines_of(&frames))
}
