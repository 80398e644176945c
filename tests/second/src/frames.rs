//! Texts cut into lines, lines into bytes, bytes into frames.

use crate::benefits::FinalPay;
use crate::calendar::Date;
use crate::posts::Post;
use crate::ten_pays::TenPays;

/// The largest text in bytes.
pub const LARGEST_TEXT: usize = 32_768;

#[derive(Clone, Copy, Debug, PartialEq, Eq)]
pub struct Member {
    pub birth: Date,
    pub retirement: Date,
    pub section: u64,
    pub pension_age: u64,
    /// The section's, on record.
    pub section_pension_age: u64,
}

/// Months early and the factors for them, in thousandths.
#[derive(Clone, Copy, Debug, PartialEq, Eq)]
pub struct Factor {
    pub scheme: u64,
    pub months: u64,
    pub pension: u64,
    pub lump_sum: u64,
}

/// A Scheme Pays pot in pence and its factor in hundredths.
#[derive(Clone, Copy, Debug, PartialEq, Eq)]
pub struct Debit {
    pub scheme: u64,
    pub pot: u64,
    pub factor: u64,
}

#[derive(Clone, Copy, Debug, PartialEq, Eq)]
pub enum Frame {
    Member(Member),
    Year { april: u64, revaluation: u64 },
    Post(Post),
    FinalPay(FinalPay),
    TenPays(TenPays),
    Factor(Factor),
    Debit(Debit),
}

/// A line of a text and whether byte 0A ends it.
#[derive(Clone, Debug, PartialEq, Eq)]
pub struct Line {
    pub characters: Vec<u8>,
    pub ended: bool,
}

/// The lines of a text. What stands after the last 0A is a line without an end.
pub fn lines(text: &[u8]) -> Vec<Line> {
    let mut pieces: Vec<Vec<u8>> = text
        .split(|&byte| byte == 0x0A)
        .map(<[u8]>::to_vec)
        .collect();
    let rest = pieces.pop().unwrap_or_default();
    let mut lines: Vec<Line> = pieces
        .into_iter()
        .map(|characters| Line {
            characters,
            ended: true,
        })
        .collect();
    if !rest.is_empty() {
        lines.push(Line {
            characters: rest,
            ended: false,
        });
    }
    lines
}

/// The value of a digit.
fn digit(character: u8) -> Option<u8> {
    b"0123456789ABCDEF"
        .iter()
        .position(|&known| known == character)
        .map(|value| value as u8)
}

/// The bytes of a line, or refusal 2.
pub fn line_bytes(line: &Line) -> Result<Vec<u8>, u64> {
    let digits: Option<Vec<u8>> = line.characters.iter().map(|&c| digit(c)).collect();
    let digits = digits.ok_or(2u64)?;
    if digits.is_empty() || digits.len() % 2 == 1 || !line.ended {
        return Err(2);
    }
    Ok(digits
        .chunks(2)
        .map(|pair| pair[0] * 16 + pair[1])
        .collect())
}

/// The widths of the fields of a kind.
fn widths(kind: u8) -> Option<&'static [usize]> {
    match kind {
        0x01 => Some(&[2, 1, 1, 2, 1, 1, 1, 1, 1]),
        0x02 => Some(&[2, 2]),
        0x03 => Some(&[2, 2, 4, 4]),
        0x04 => Some(&[4, 4, 4, 4, 2, 2, 2, 1, 2, 2]),
        0x05 => Some(&[1, 2, 2, 2]),
        0x06 => Some(&[1, 4, 2]),
        0x08 => Some(&[4, 4, 4, 4, 4, 4, 4, 4, 4, 4, 2]),
        _ => None,
    }
}

/// The fields of a frame, or nothing where its length is another.
fn fields(kind: u8, bytes: &[u8]) -> Option<Vec<u64>> {
    let widths = widths(kind)?;
    if widths.iter().sum::<usize>() != bytes.len() {
        return None;
    }
    let mut rest = bytes.iter();
    let number = |width: &usize| {
        rest.by_ref()
            .take(*width)
            .fold(0, |number, &byte| number * 256 + u64::from(byte))
    };
    Some(widths.iter().map(number).collect())
}

/// The date of three fields.
fn date(fields: &[u64]) -> Date {
    Date {
        year: fields[0],
        month: fields[1],
        day: fields[2],
    }
}

/// The frame of bytes, or refusal 3.
pub fn frame(bytes: &[u8]) -> Result<Frame, u64> {
    let (&kind, rest) = bytes.split_first().ok_or(3u64)?;
    let of = fields(kind, rest).ok_or(3u64)?;
    Ok(match kind {
        0x01 => Frame::Member(Member {
            birth: date(&of[..3]),
            retirement: date(&of[3..6]),
            section: of[6],
            pension_age: of[7],
            section_pension_age: of[8],
        }),
        0x02 => Frame::Year {
            april: of[0],
            revaluation: of[1],
        },
        0x03 => Frame::Post(Post::of(of.as_slice().try_into().expect("four fields"))),
        0x04 => Frame::FinalPay(FinalPay::of(of.as_slice().try_into().expect("ten fields"))),
        0x05 => Frame::Factor(Factor {
            scheme: of[0],
            months: of[1],
            pension: of[2],
            lump_sum: of[3],
        }),
        0x06 => Frame::Debit(Debit {
            scheme: of[0],
            pot: of[1],
            factor: of[2],
        }),
        _ => Frame::TenPays(TenPays::of(
            of.as_slice().try_into().expect("eleven fields"),
        )),
    })
}
