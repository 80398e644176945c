//! Posts that start and stop. A year is the list of the posts that remain, and nothing else: after each
//! change the posts step works them afresh.

use crate::posts::{try_post, Post};
use crate::unless;

/// A post joins a year at its end, or is refused by 7 or 8.
pub fn join(year: &mut Vec<Post>, post: Post) -> Result<(), u64> {
    try_post(year, &post)?;
    year.push(post);
    Ok(())
}

/// The post at a position, counted from 1, leaves a year, and later ones move up; refusal 29 where the
/// position holds none.
pub fn leave(year: &mut Vec<Post>, position: u64) -> Result<(), u64> {
    let held = 1..=year.len() as u64;
    unless(held.contains(&position), 29)?;
    year.remove(position as usize - 1);
    Ok(())
}
