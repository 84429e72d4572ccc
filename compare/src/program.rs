//! `compare program COMMAND [ARGS...]`: a program `pattern` against the table of proved cases and the text the second one prints.

use crate::cases::{self, Case};
use crate::fault;
use crate::inputs;
use crate::lending::hex;
use crate::random::Random;
use second::INPUT_LIMIT;
use std::fs::File;
use std::io::{self, Read, Seek, Write};
use std::process::{Child, Command, ExitCode, Stdio};
use std::time::Duration;

const MIXED: usize = 280;
const CHUNKS: [usize; 7] = [1, 3, 17, 1_000, 4_096, 40_000, 1_000_000];

fn started(command: &[String], input: Stdio) -> io::Result<Child> {
    let mut child = Command::new(&command[0]);
    child.args(&command[1..]).stdin(input);
    child.stdout(Stdio::piped()).spawn()
}

/// What the program prints when its input comes in chunks through a pipe.
fn through_pipe(command: &[String], input: &[u8], chunk: usize) -> io::Result<Vec<u8>> {
    let mut child = started(command, Stdio::piped())?;
    let mut pipe = child.stdin.take();
    std::thread::scope(|scope| {
        scope.spawn(move || {
            for (at, bytes) in input.chunks(chunk).enumerate() {
                // The program may have gone when it has taken all that it takes.
                if pipe.as_mut().map_or(true, |pipe| pipe.write_all(bytes).is_err()) {
                    return;
                }
                // A pause lets the program read a chunk alone.
                if at < 20 {
                    std::thread::sleep(Duration::from_micros(300));
                }
            }
        });
        ended(child)
    })
}

fn ended(mut child: Child) -> io::Result<Vec<u8>> {
    let mut text = Vec::new();
    if let Some(mut pipe) = child.stdout.take() {
        pipe.read_to_end(&mut text)?;
    }
    let status = child.wait()?;
    match status.success() {
        true => Ok(text),
        false => Err(fault(&format!("the program ended with {status}"))),
    }
}

/// How many bytes the program takes from a file, which stays open here.
fn taken(command: &[String], input: &[u8]) -> io::Result<u64> {
    let path = std::env::temp_dir().join(format!("compare-input-{}", std::process::id()));
    std::fs::write(&path, input)?;
    let mut file = File::open(&path)?;
    std::fs::remove_file(&path)?;
    ended(started(command, file.try_clone()?.into())?)?;
    file.stream_position()
}

fn differs(Case { input, printed: expected }: &Case, chunk: usize, text: &[u8]) -> bool {
    if text == expected.as_bytes() {
        return false;
    }
    let same = text.iter().zip(expected.as_bytes()).take_while(|(one, other)| one == other);
    println!("DIFFERENCE at byte {} of the printed result, chunks of {chunk}", same.count());
    println!("  input {}", hex(input));
    println!("  program: {:?}", String::from_utf8_lossy(text));
    println!("  expected: {expected:?}");
    true
}

pub fn compare(command: &[String]) -> io::Result<ExitCode> {
    let mut random = Random::new(7);
    let mut all = cases::table()?;
    let few = inputs::all_at_limits().into_iter().chain(inputs::faulty()).chain(inputs::merges());
    let generated = few.chain(inputs::mixed(&mut random, MIXED, 40_000));
    all.extend(generated.map(Case::by_second));
    for (at, case) in all.iter().enumerate() {
        let chunk = match CHUNKS[at % CHUNKS.len()] {
            small if case.input.len() / small > 5_000 => 509,
            chunk => chunk,
        };
        if differs(case, chunk, &through_pipe(command, &case.input, chunk)?) {
            return Ok(ExitCode::FAILURE);
        }
    }
    for length in [INPUT_LIMIT - 1, INPUT_LIMIT, INPUT_LIMIT + 1, 2 * INPUT_LIMIT] {
        let taken = taken(command, &vec![0; length])?;
        if taken != length.min(INPUT_LIMIT) as u64 {
            println!("DIFFERENCE: of {length} bytes of input the program takes {taken}");
            return Ok(ExitCode::FAILURE);
        }
    }
    println!("{} inputs agree", all.len());
    Ok(ExitCode::SUCCESS)
}
