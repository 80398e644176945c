//! Cases in words, as people write them: a writer in many spellings, a small reader, and the names of
//! posts.

pub mod names;
pub mod reading;
pub mod refused;
mod spelling;
pub mod writing;

use crate::calendar::SECTION_PENSION_AGES;
use crate::cases::{Case, Year};
use crate::frames::{frame, Frame};
use crate::samples::writing::{frame_bytes, lines_of, text_of};

/// A case and the names of its posts, year by year.
#[derive(Clone, Debug, PartialEq, Eq)]
pub struct Named {
    pub case: Case,
    pub names: Vec<Vec<String>>,
}

/// A line of a case: its frame and, of a post, its name.
///
/// A scheme of 1 in a factor or a debit is the member's section, or either where there is none; 2 is the
/// section that the member does not have. The member's own section goes for nothing here.
#[derive(Clone, Debug, PartialEq, Eq)]
pub struct Line {
    pub frame: Frame,
    pub name: String,
}

impl Line {
    pub fn of(frame: Frame) -> Line {
        let name = String::new();
        Line { frame, name }
    }
}

impl Named {
    /// A case whose posts are named by their number in the year.
    pub fn by_number(case: Case) -> Named {
        let numbered = |year: &Year| {
            let numbers = 1..=year.posts.len();
            numbers.map(|number| format!("post {number}")).collect()
        };
        Named {
            names: case.years.iter().map(numbered).collect(),
            case,
        }
    }

    /// The lines of the case, in the order of the frames.
    pub fn lines(&self) -> Vec<Line> {
        let case = &self.case;
        let mut lines: Vec<Line> = Vec::new();
        lines.extend(case.member.map(|member| Line::of(Frame::Member(member))));
        for (year, names) in case.years.iter().zip(&self.names) {
            let (april, revaluation) = (year.april, year.revaluation);
            lines.push(Line::of(Frame::Year { april, revaluation }));
            lines.extend(year.posts.iter().zip(names).map(|(post, name)| Line {
                frame: Frame::Post(*post),
                name: name.clone(),
            }));
        }
        lines.extend(case.final_pay.map(|pay| Line::of(Frame::FinalPay(pay))));
        lines.extend(case.ten_pays.map(|pays| Line::of(Frame::TenPays(pays))));
        let factors = case.factors.iter().map(|factor| Frame::Factor(*factor));
        let debits = case.debits.iter().map(|debit| Frame::Debit(*debit));
        lines.extend(factors.chain(debits).map(Line::of));
        lines
    }

    /// The case of lines that are all accepted.
    pub fn of(lines: &[Line]) -> Result<Named, u64> {
        let mut named = Named {
            case: Case::default(),
            names: Vec::new(),
        };
        for line in with_section(lines) {
            named.case.take(line.frame)?;
            match line.frame {
                Frame::Year { .. } => named.names.push(Vec::new()),
                Frame::Post(_) => named.names.last_mut().ok_or(4u64)?.push(line.name),
                _ => {}
            }
        }
        Ok(named)
    }
}

/// The section that lines say: that of the first pays of a section.
pub fn section_of(lines: &[Line]) -> u64 {
    let section = |line: &Line| match line.frame {
        Frame::FinalPay(_) => Some(1),
        Frame::TenPays(_) => Some(2),
        _ => None,
    };
    lines.iter().find_map(section).unwrap_or(0)
}

/// The lines with the section that they say in their members.
fn with_section(lines: &[Line]) -> Vec<Line> {
    let section = section_of(lines);
    let mut lines = lines.to_vec();
    for line in &mut lines {
        if let Frame::Member(member) = &mut line.frame {
            member.section = section;
            member.section_pension_age = SECTION_PENSION_AGES[section as usize];
        }
    }
    lines
}

/// The text of lines. A number that is too large for its field stands there as the largest.
pub fn text_of_lines(lines: &[Line]) -> Vec<u8> {
    let lines = with_section(lines);
    let frames: Vec<Vec<u8>> = lines.iter().map(|line| frame_bytes(&line.frame)).collect();
    text_of(&lines_of(&frames))
}

/// Whether every number of a line fits its field.
pub fn fits(line: &Line) -> bool {
    frame(&frame_bytes(&line.frame)) == Ok(line.frame)
}
