//! Reads a text from standard input and prints its line.

use std::io::{self, Read, Write};

fn main() -> io::Result<()> {
    let mut text = Vec::new();
    io::stdin().read_to_end(&mut text)?;
    io::stdout().write_all(&second::printed(&second::case(&text)))
}
