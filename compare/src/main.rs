//! Runs the engine and the independent second program on the same inputs:
//! `compare [CALLS] [SEED]`, every call with the same arguments, answers and lent bytes compared;
//! `compare program COMMAND [ARGS...]`, a program `pattern` on whole inputs;
//! `compare corpus FOLDER [--check]`, inputs and printed results for a program that takes many.

mod calls;
mod cases;
mod chains;
mod corpus;
mod coverage;
mod damaged;
mod engine;
mod inputs;
mod lending;
mod limits;
mod meanings;
mod merges;
mod meshes;
mod off_coverage;
mod off_faults;
mod off_rounds;
mod off_sweeps;
mod off_texts;
mod operators;
mod patterns;
mod places;
mod program;
mod random;
mod rounds;
mod scripts;
mod sweeps;
mod tables;

use calls::Comparison;
use random::Random;
use rounds::Rounds;
use std::io;
use std::process::ExitCode;
use sweeps::Sweeps;

/// What cannot be gone on with.
fn fault(text: &str) -> io::Error {
    io::Error::new(io::ErrorKind::Other, text)
}

const CALLS: u64 = 240_000;
const SEED: u64 = 1;
const USAGE: &str = "[CALLS] [SEED] | program COMMAND [ARGS...] | corpus FOLDER [--check]";

/// One of the two halves of a run: each begins with sweeps, the second with those of OFF texts, which always run whole, and
/// both go on at random until there are as many calls.
fn half(first: bool, calls: u64, seed: u64) -> Comparison {
    let name = if first { "first" } else { "second" };
    let mut comparison = Comparison::new(format!("the {name} half, seed {seed}"));
    let mut random = Random::new(seed);
    let mut sweeps = Sweeps::new(&mut comparison, Random::new(random.next()));
    if first {
        sweeps.run();
    } else {
        sweeps.off();
    }
    let own = if first { random.next() } else { !random.next() };
    Rounds::new(&mut comparison, Random::new(own)).run(calls);
    comparison
}

fn compare(calls: u64, seed: u64) -> ExitCode {
    let (first, second) = std::thread::scope(|scope| {
        let second = scope.spawn(|| half(false, calls / 2, seed));
        (half(true, calls - calls / 2, seed), second.join())
    });
    let second = match second {
        Ok(second) => second,
        Err(_) => return ExitCode::FAILURE,
    };
    let calls = first.calls + second.calls;
    let mut coverage = first.coverage;
    coverage.add(second.coverage);
    let faults = coverage.print();
    for fault in &faults {
        println!("NOT COVERED: {fault}");
    }
    if !faults.is_empty() {
        return ExitCode::FAILURE;
    }
    println!("{calls} calls agree");
    ExitCode::SUCCESS
}

fn calls_and_seed(words: &[&str]) -> Option<ExitCode> {
    let number = |place: usize, default| match words.get(place) {
        Some(word) => word.parse().ok(),
        None => Some(default),
    };
    match words.len() {
        0..=2 => Some(compare(number(0, CALLS)?, number(1, SEED)?)),
        _ => None,
    }
}

fn main() -> ExitCode {
    let words: Vec<String> = std::env::args().skip(1).collect();
    let named: Vec<&str> = words.iter().map(String::as_str).collect();
    let ended = match named[..] {
        ["program", _, ..] => program::compare(&words[1..]),
        ["corpus", folder] => corpus::write_or_check(folder, false),
        ["corpus", folder, "--check"] => corpus::write_or_check(folder, true),
        _ => calls_and_seed(&named).ok_or_else(|| fault(USAGE)),
    };
    ended.unwrap_or_else(|error| {
        eprintln!("compare: {error}");
        ExitCode::FAILURE
    })
}
