//! Cases written as frames, lines and texts.

use crate::benefits::FinalPay;
use crate::cases::Case;
use crate::frames::{Debit, Factor, Member};
use crate::posts::Post;
use crate::ten_pays::TenPays;

/// A frame's bytes: its kind, then pairs of width and number.
fn frame(kind: u8, fields: &[(usize, u64)]) -> Vec<u8> {
    let mut bytes = vec![kind];
    for &(width, number) in fields {
        bytes.extend(&number.to_be_bytes()[8 - width..]);
    }
    bytes
}

pub fn member_frame(member: &Member) -> Vec<u8> {
    let (birth, retirement) = (member.birth, member.retirement);
    frame(
        0x01,
        &[
            (2, birth.year),
            (1, birth.month),
            (1, birth.day),
            (2, retirement.year),
            (1, retirement.month),
            (1, retirement.day),
            (1, member.section),
            (1, member.pension_age),
            (1, member.section_pension_age),
        ],
    )
}

pub fn year_frame(april: u64, revaluation: u64) -> Vec<u8> {
    frame(0x02, &[(2, april), (2, revaluation)])
}

pub fn post_frame(post: &Post) -> Vec<u8> {
    frame(
        0x03,
        &[
            (2, post.contracted),
            (2, post.whole_time),
            (4, post.pay),
            (4, post.supplement),
        ],
    )
}

pub fn final_pay_frame(final_pay: &FinalPay) -> Vec<u8> {
    let mut fields: Vec<(usize, u64)> = Vec::new();
    fields.extend(final_pay.pays.map(|pay| (4, pay)));
    fields.extend(final_pay.allowances.map(|allowance| (2, allowance)));
    fields.push((1, final_pay.controls));
    fields.push((2, final_pay.days));
    fields.push((2, final_pay.factor));
    frame(0x04, &fields)
}

pub fn ten_pays_frame(ten_pays: &TenPays) -> Vec<u8> {
    let mut fields = ten_pays.pays.map(|pay| (4, pay)).to_vec();
    fields.push((2, ten_pays.days));
    frame(0x08, &fields)
}

pub fn factor_frame(factor: &Factor) -> Vec<u8> {
    frame(
        0x05,
        &[
            (1, factor.scheme),
            (2, factor.months),
            (2, factor.pension),
            (2, factor.lump_sum),
        ],
    )
}

pub fn debit_frame(debit: &Debit) -> Vec<u8> {
    frame(
        0x06,
        &[(1, debit.scheme), (4, debit.pot), (2, debit.factor)],
    )
}

/// The posts of a list as the posts call takes them.
pub fn post_records(posts: &[Post]) -> Vec<u8> {
    posts
        .iter()
        .flat_map(|post| post_frame(post).split_off(1))
        .collect()
}

/// The frames of a case in order.
pub fn frames_of(case: &Case) -> Vec<Vec<u8>> {
    let mut frames: Vec<Vec<u8>> = Vec::new();
    frames.extend(case.member.iter().map(member_frame));
    for year in &case.years {
        frames.push(year_frame(year.april, year.revaluation));
        frames.extend(year.posts.iter().map(post_frame));
    }
    frames.extend(case.final_pay.iter().map(final_pay_frame));
    frames.extend(case.ten_pays.iter().map(ten_pays_frame));
    frames.extend(case.factors.iter().map(factor_frame));
    frames.extend(case.debits.iter().map(debit_frame));
    frames
}

/// The digits of bytes.
pub fn digits(bytes: &[u8]) -> Vec<u8> {
    let pairs: String = bytes.iter().map(|byte| format!("{byte:02X}")).collect();
    pairs.into_bytes()
}

/// The lines of frames, without their 0A.
pub fn lines_of(frames: &[Vec<u8>]) -> Vec<Vec<u8>> {
    frames.iter().map(|frame| digits(frame)).collect()
}

/// A text of lines, each ended by 0A.
pub fn text_of(lines: &[Vec<u8>]) -> Vec<u8> {
    let mut text = lines.join(&0x0A);
    if !lines.is_empty() {
        text.push(0x0A);
    }
    text
}

/// The text of a case.
pub fn case_text(case: &Case) -> Vec<u8> {
    text_of(&lines_of(&frames_of(case)))
}
