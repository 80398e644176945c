//! What the programs of the benchmark share.

pub mod compare;
pub mod texts;
pub mod timing;
pub mod twin;
