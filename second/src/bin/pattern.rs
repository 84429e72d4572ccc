//! Reads a mesh and a script from standard input and prints the result.

use std::fs::File;
use std::io::{self, Read, Write};
use std::os::unix::io::AsFd;

use second::{printed, INPUT_LIMIT};

fn main() -> io::Result<()> {
    // Unbuffered, so that no byte past the limit is taken from the input.
    let source = File::from(io::stdin().as_fd().try_clone_to_owned()?);
    let mut input = Vec::new();
    source.take(INPUT_LIMIT as u64).read_to_end(&mut input)?;
    io::stdout().write_all(printed(&input).as_bytes())
}
