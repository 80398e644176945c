//! The script of `running`: an empty line starts a new case, `F LABEL|FRAME FRAME` offers frames,
//! `C LABEL` closes the case.

use crate::words::{bytes, command};
use second::cases::Case;
use second::frames::frame;

/// The case that the lines so far have made.
#[derive(Default)]
pub struct Running {
    case: Case,
}

impl Running {
    /// Does a line and gives what it writes.
    pub fn line(&mut self, line: &str) -> Option<String> {
        if line.is_empty() {
            self.case = Case::default();
            return Some(String::new());
        }
        match (command(line), line.strip_prefix("C ")) {
            (Some(("F", label, frames)), _) => self.offer(label, &frames),
            (None, Some(label)) => Some(self.closed(label)),
            _ => None,
        }
    }

    /// Offers frames to the case: the label and the refusal of each, 0 for a frame that is kept.
    fn offer(&mut self, label: &str, frames: &[&str]) -> Option<String> {
        let mut line = label.to_string();
        for word in frames {
            let taken = frame(&bytes(word)?).and_then(|frame| self.case.take(frame));
            let refusal = taken.err().unwrap_or(0);
            line += &format!(" {refusal}");
        }
        Some(line + "\n")
    }

    /// The label, the four amounts and the count of upward roundings, or the refusal of the closing,
    /// which has no line.
    fn closed(&self, label: &str) -> String {
        match self.case.close() {
            Ok(given) => format!(
                "{label}: net 2015 {}, net 1995 {}, lump sum {}, charge {} pence, {} rounded up\n",
                given.net_2015, given.net_1995, given.net_lump_sum, given.charge, given.rounded_up
            ),
            Err(refusal) => format!("{label}: refusal {refusal}, line 0\n"),
        }
    }
}
