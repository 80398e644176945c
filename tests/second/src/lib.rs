//! A second working of pension cases, written from document 01 and the landed requests of document
//! 02: 2.1 to 2.8.
//!
//! It shares nothing with the engine and goes another way wherever there is one: posts are sorted
//! by rate and filled in turn, afresh after each change of a year, the aggregate is one exact sum of
//! fractions in wide numbers, months are counted one by one on a calendar of counted days, pays are
//! annualised by whole pence a day, the best three years are looked for among the eight sums of three,
//! a rounding has gone up where the number times the divisor is above what was divided, upward ones are
//! counted over a list of all roundings that is made after the amounts, and a text is cut into owned
//! lines before any of them is read.
//!
//! Its programs: `second` prints the line of a text, as the case program does; `scripts` does the
//! scripts of the engine's test programs; `rivals` tries rival workings against the engine's amounts;
//! `compare` holds the engine against it; `documents` holds the documents against both and against
//! the repository; `program` runs the case program. The engine's library is linked into all of them,
//! so that none can run without it: `CANYONSIEVE_LIB_DIR` names the folder of `libcanyonsieve.a`.
//!
//! `mistakes` has workings with one step wrong, for the examples that show them; `document_01` has the
//! posts step as it was before supplements, for lists that have none.
//!
//! ```text
//! CANYONSIEVE_LIB_DIR=.. cargo run --release --bin compare
//! ```

pub mod benefits;
pub mod calendar;
pub mod cases;
pub mod changes;
pub mod document_01;
pub mod employers;
pub mod engine;
pub mod frames;
pub mod mistakes;
pub mod posts;
pub mod random;
pub mod roundings;
pub mod samples;
pub mod ten_pays;
pub mod wide;

pub use benefits::{abatement, charge};
pub use calendar::months_early;
pub use cases::{case, printed, Outcome};
pub use employers::change_of_employer;
pub use posts::{posts, records};

/// The largest pay, supplement or pot in pence.
pub const LARGEST_PAY: u64 = 1_000_000_000;

/// `Err` with the refusal where the test fails.
pub(crate) fn unless(passes: bool, refusal: u64) -> Result<(), u64> {
    if passes {
        Ok(())
    } else {
        Err(refusal)
    }
}
