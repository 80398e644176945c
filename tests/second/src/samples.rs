//! Inputs drawn from a fixed seed: accepted cases, damaged texts, and the calls apart.

pub mod accepted;
pub mod calls;
pub mod damaged;
pub mod employers;
pub mod roundings;
pub mod supplements;
pub mod ten_pays;
pub mod writing;
