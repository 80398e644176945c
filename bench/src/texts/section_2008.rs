//! Texts of the 2008 Section for the comparison: drawn ones, and one for each cause of refusal, the
//! pension ages of the other sections among them.

use super::{factors, member, posts};
use second::calendar::SECTION_PENSION_AGES;
use second::frames::{Debit, Factor};
use second::random::Random;
use second::samples::writing::{
    debit_frame, factor_frame, lines_of, member_frame, post_frame, text_of, year_frame,
};
use second::LARGEST_PAY;

/// Kinds of frames.
const MEMBER: u8 = 1;
const YEAR: u8 = 2;
const POST: u8 = 3;
const FINAL_PAY: u8 = 4;
const FACTOR: u8 = 5;
const DEBIT: u8 = 6;
const TEN_PAYS: u8 = 8;

/// Where the section, its pension age, an 08's pays and its days stand in their frames.
const SECTION: usize = 9;
const SECTION_PENSION_AGE: usize = 11;
const PAYS: [usize; 10] = [1, 5, 9, 13, 17, 21, 25, 29, 33, 37];
const DAYS: usize = 41;

/// The most days of service.
const MOST_DAYS: u64 = 16_425;

/// The section's pension age in months.
const PENSION_AGE: u64 = 12 * SECTION_PENSION_AGES[2];

/// An 04 that stands with section 1, of noughts but for its factor.
fn final_pay() -> Vec<u8> {
    let mut frame = vec![0; 28];
    frame[0] = FINAL_PAY;
    frame[27] = 1;
    frame
}

/// An 08 whose threes of years are far apart, near one another or equal.
fn ten_pays(random: &mut Random) -> Vec<u8> {
    let highest = random.of_any_size(LARGEST_PAY);
    let apart = random.pick(&[0, 1, 2, highest]).min(highest);
    let mut frame = vec![TEN_PAYS];
    for _ in PAYS {
        let pay = highest - random.between(0, apart);
        frame.extend((pay as u32).to_be_bytes());
    }
    let days = random.near_ends(0, MOST_DAYS);
    frame.extend((days as u16).to_be_bytes());
    frame
}

/// A dozen factors of the section, none of them with a lump factor.
fn section_factors(random: &mut Random, wanted: u64) -> Vec<Factor> {
    let mut factors = factors(random, 1, wanted);
    for factor in &mut factors {
        factor.lump_sum = 0;
    }
    factors
}

/// The frames of a text, in order.
#[derive(Clone)]
struct Frames(Vec<Vec<u8>>);

impl Frames {
    /// Those of a member who retires so many months after birth, with the factors wanted and a debit
    /// of each scheme.
    fn drawn(random: &mut Random, months: u64, largest_pot: u64) -> Frames {
        let pension_age = random.between(55, 75);
        let mut frames = vec![member_frame(&member(random, 2, pension_age, months))];
        frames.push(year_frame(
            random.between(2015, 2100),
            random.between(0, 900),
        ));
        frames.extend(posts(random, 3).iter().map(post_frame));
        frames.push(ten_pays(random));
        if let Some(early @ 1..) = (12 * pension_age).checked_sub(months) {
            frames.extend(factors(random, 0, early).iter().map(factor_frame));
        }
        if let Some(early @ 1..) = PENSION_AGE.checked_sub(months) {
            frames.extend(section_factors(random, early).iter().map(factor_frame));
        }
        for scheme in [0, 1] {
            frames.push(debit_frame(&Debit {
                scheme,
                pot: random.of_any_size(largest_pot),
                factor: random.between(1_500, 2_500),
            }));
        }
        Frames(frames)
    }

    fn text(&self) -> Vec<u8> {
        text_of(&lines_of(&self.0))
    }

    /// The place of the first frame of a kind.
    fn place(&self, kind: u8) -> usize {
        let place = self.0.iter().position(|frame| frame[0] == kind);
        place.expect("a frame of the kind")
    }

    /// With another number of so many bytes in the first frame of a kind.
    fn with_number(&self, kind: u8, at: usize, width: usize, number: u64) -> Frames {
        let mut frames = self.clone();
        let frame = &mut frames.0[self.place(kind)];
        frame[at..at + width].copy_from_slice(&number.to_be_bytes()[8 - width..]);
        frames
    }

    /// With a member of another section.
    fn in_section(&self, section: u64) -> Frames {
        let age = SECTION_PENSION_AGES[section as usize];
        let other = self.with_number(MEMBER, SECTION, 1, section);
        other.with_number(MEMBER, SECTION_PENSION_AGE, 1, age)
    }

    /// With one more frame at a place.
    fn with_frame(&self, place: usize, frame: Vec<u8>) -> Frames {
        let mut frames = self.clone();
        frames.0.insert(place, frame);
        frames
    }

    /// With the 08 replaced.
    fn with_pay(&self, frame: Vec<u8>) -> Frames {
        let mut frames = self.clone();
        frames.0[self.place(TEN_PAYS)] = frame;
        frames
    }

    /// Without the frames that are so.
    fn without(&self, is_so: impl Fn(&[u8]) -> bool) -> Frames {
        let mut frames = self.clone();
        frames.0.retain(|frame| !is_so(frame));
        frames
    }
}

/// A text of the section, refused by 14 where a debit is above its pension.
pub fn drawn(random: &mut Random) -> Vec<u8> {
    let months = random.between(PENSION_AGE - 60, PENSION_AGE + 24);
    let largest_pot = random.pick(&[0, 100_000]);
    Frames::drawn(random, months, largest_pot).text()
}

/// Refused texts, each with the number of its refusal.
#[derive(Default)]
struct Refused(Vec<(u64, Vec<u8>)>);

impl Refused {
    fn add(&mut self, refusal: u64, frames: Frames) {
        self.0.push((refusal, frames.text()));
    }

    /// Numbers of the 08 past their limits, alone and with another section; other pays for it.
    fn add_pays(&mut self, random: &mut Random, frames: &Frames) {
        let past_pay = random.near_ends(LARGEST_PAY + 1, 0xFFFF_FFFF);
        let past_days = random.near_ends(MOST_DAYS + 1, 0xFFFF);
        for at in PAYS {
            self.add(27, frames.with_number(TEN_PAYS, at, 4, past_pay));
        }
        self.add(27, frames.with_number(TEN_PAYS, DAYS, 2, past_days));
        for section in [0, 1] {
            let other = frames.in_section(section);
            self.add(4, other.with_number(TEN_PAYS, DAYS, 2, past_days));
            self.add(4, other);
        }
        self.add(4, frames.with_pay(final_pay()));
        self.add(4, frames.with_pay([&final_pay()[..27], &[0]].concat()));
    }

    /// An 08 or another frame out of order.
    fn add_orders(&mut self, frames: &Frames) {
        let pay_place = frames.place(TEN_PAYS);
        let ten_pays = &frames.0[pay_place];
        self.add(4, frames.with_frame(0, ten_pays.clone()));
        for kind in [MEMBER, YEAR, POST, TEN_PAYS] {
            let again = frames.0[frames.place(kind)].clone();
            self.add(4, frames.with_frame(pay_place + 1, again));
        }
        self.add(4, frames.with_frame(pay_place + 1, final_pay()));
        let of_1995 = frames.in_section(1).with_pay(final_pay());
        self.add(4, of_1995.with_frame(pay_place + 1, ten_pays.clone()));
        let without_pay = frames.without(|frame| frame[0] == TEN_PAYS);
        for kind in [FACTOR, DEBIT] {
            let late = without_pay.place(kind) + 1;
            self.add(4, without_pay.with_frame(late, ten_pays.clone()));
        }
    }

    /// Lengths and kinds beside the 08's.
    fn add_lengths(&mut self, frames: &Frames) {
        let ten_pays = &frames.0[frames.place(TEN_PAYS)];
        self.add(3, frames.with_pay(ten_pays[..42].to_vec()));
        self.add(3, frames.with_pay([&ten_pays[..], &[0]].concat()));
        for kind in [7, 9] {
            self.add(3, frames.with_number(TEN_PAYS, 0, 1, kind));
        }
    }

    /// A pension age that is not the section's, alone, with a refused field and in a second 01; the
    /// 01 without it, and with one more byte.
    fn add_ages(&mut self, frames: &Frames) {
        for (section, others) in [(0, [60, 65, 0xFF]), (1, [0, 65, 0xFF]), (2, [0, 60, 0xFF])] {
            for age in others {
                let other = frames.in_section(section);
                let other = other.with_number(MEMBER, SECTION_PENSION_AGE, 1, age);
                self.add(5, other.with_number(MEMBER, SECTION + 1, 1, 54));
                self.add(5, other.with_number(MEMBER, SECTION, 1, 3));
                self.add(4, frames.with_frame(1, other.0[0].clone()));
                self.add(28, other);
            }
        }
        for length in [11, 13] {
            let mut other = frames.clone();
            other.0[0].resize(length, 0);
            self.add(3, other);
        }
    }

    /// Sections, schemes and a lump factor that are not there, and what closing misses.
    fn add_others(&mut self, random: &mut Random, frames: &Frames) {
        let section = random.near_ends(3, 0xFF);
        self.add(5, frames.with_number(MEMBER, SECTION, 1, section));
        let of_section = |frame: &[u8]| frame[0] == FACTOR && frame[1] == 1;
        let factor = frames.0.iter().position(|frame| of_section(frame));
        let mut lump_factor = frames.clone();
        lump_factor.0[factor.expect("a factor of the section")][7] = 1;
        self.add(10, lump_factor);
        self.add(10, frames.with_number(FACTOR, 1, 1, 2));
        self.add(11, frames.with_number(DEBIT, 1, 1, 2));
        let without_pay = frames.without(|frame| frame[0] == TEN_PAYS);
        self.add(12, without_pay.without(|frame| frame[0] == FACTOR));
        self.add(12, without_pay);
        self.add(13, frames.without(of_section));
        let mut debit = frames.clone();
        let last = debit.0.last_mut().expect("a debit of the section");
        last[2..].copy_from_slice(&[0x3B, 0x9A, 0xCA, 0x00, 0x00, 0x01]);
        self.add(14, debit);
    }
}

/// One text for each cause of refusal that the section has, with the number of the refusal.
pub fn refused(random: &mut Random) -> Vec<(u64, Vec<u8>)> {
    let months = random.between(PENSION_AGE - 180, PENSION_AGE - 121);
    let frames = Frames::drawn(random, months, 0);
    let mut refused = Refused::default();
    refused.add_pays(random, &frames);
    refused.add_orders(&frames);
    refused.add_lengths(&frames);
    refused.add_ages(&frames);
    refused.add_others(random, &frames);
    refused.0
}

#[cfg(test)]
mod tests {
    use super::*;
    use crate::twin;

    #[test]
    fn drawn_texts_are_mostly_accepted() {
        let mut random = Random::new(2008);
        let refusals = (0..1_000).map(|_| twin::case(&drawn(&mut random)).refusal);
        let refusals: Vec<u64> = refusals.collect();
        assert!(refusals
            .iter()
            .all(|refusal| *refusal == 0 || *refusal == 14));
        let accepted = refusals.iter().filter(|refusal| **refusal == 0);
        assert!(accepted.count() > 500);
    }

    #[test]
    fn each_cause_is_refused_by_its_number() {
        let mut random = Random::new(2008);
        for _ in 0..100 {
            for (refusal, text) in refused(&mut random) {
                let given = twin::case(&text).refusal;
                assert_eq!(given, refusal, "{}", String::from_utf8_lossy(&text));
            }
        }
    }
}
