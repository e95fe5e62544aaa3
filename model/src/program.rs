//! What the model's programs have in common.

use std::io::{self, Read, Write};

/// Writes what a function makes of all of standard input to standard output.
pub fn from_input_to_output(made_of: fn(&[u8]) -> Vec<u8>) -> io::Result<()> {
    let mut input = Vec::new();
    io::stdin().read_to_end(&mut input)?;
    io::stdout().write_all(&made_of(&input))
}
