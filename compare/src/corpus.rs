//! `compare corpus FOLDER [--check]`: inputs for a program that takes many, and its output. The rows of the table of proved
//! cases come first, with the lines that are proved; then generated inputs, with what the second program prints.

use crate::cases::{self, Case};
use crate::fault;
use crate::inputs;
use crate::random::Random;
use second::printed;
use std::fs::{create_dir_all, read, write};
use std::io;
use std::path::Path;
use std::process::ExitCode;

const MIXED: usize = 246;

/// The table's cases, and as many that the second program decides.
fn all_cases() -> io::Result<Vec<Case>> {
    let mut all = cases::table()?;
    if all.iter().any(|case| printed(&case.input) != case.printed) {
        return Err(fault("the table of cases is not what is printed"));
    }
    let mut generated = inputs::mixed(&mut Random::new(11), MIXED, 1_500);
    generated.extend(inputs::merges());
    generated.extend(inputs::few_at_limits());
    all.extend(generated.into_iter().map(Case::by_second));
    Ok(all)
}

/// Records, each a length in three bytes, low first, and that many bytes of input; and the
/// printed results.
fn corpus() -> io::Result<(Vec<u8>, Vec<u8>)> {
    let (mut records, mut results) = (Vec::new(), Vec::new());
    for case in all_cases()? {
        records.extend(&(case.input.len() as u32).to_le_bytes()[..3]);
        records.extend(&case.input);
        results.extend(case.printed.into_bytes());
    }
    Ok((records, results))
}

pub fn write_or_check(folder: &str, check: bool) -> io::Result<ExitCode> {
    let folder = Path::new(folder);
    let (records, results) = corpus()?;
    for (name, bytes) in [("stdin", records), ("stdout", results)] {
        let path = folder.join(name);
        if !check {
            create_dir_all(folder)?;
            write(&path, &bytes)?;
        } else if read(&path)? != bytes {
            println!("{} differs from the corpus", path.display());
            return Ok(ExitCode::FAILURE);
        }
        println!("{}: {} bytes", path.display(), bytes.len());
    }
    Ok(ExitCode::SUCCESS)
}
