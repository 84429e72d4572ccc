//! The whole way of a studio: `studio TEXT [SCRIPT [POINTS]]` imports an OFF text, runs a script on the pattern, and exports it to standard
//! output. Each is the name of a file. The engine knows no places, so corners that the script adds get theirs from POINTS. Whatever is
//! refused is told in words on standard error, and then nothing is written.

mod corners;
mod points;

use corners::{moves, Move};
use mbyasoka::limits::OFF_BYTES;
use mbyasoka::{Coordinates, Pattern, Refusal, Run, COORDINATES};
use points::Point;
use std::fmt::Display;
use std::io::{self, Write};
use std::process::ExitCode;

/// What was refused, and why.
fn told<E: Display>(of: &'static str) -> impl Fn(E) -> String {
    move |why| format!("{of}: {why}")
}

/// A pattern and where its corners are.
struct Studio {
    pattern: Box<Pattern>,
    points: Vec<Point>,
}

impl Studio {
    fn import(text: &[u8]) -> Result<Studio, String> {
        let (mut pattern, mut list): (Box<Pattern>, Coordinates) = (Box::default(), [0; COORDINATES]);
        pattern.import_off(text, &mut list).map_err(told("text"))?;
        let points = list.chunks(3).take(pattern.counts[0].into()).map(|own| [own[0], own[1], own[2]]).collect();
        Ok(Studio { pattern, points })
    }

    /// The whole script, or nothing of it.
    fn run(&mut self, script: &[u8], added: &[Point]) -> Result<(), String> {
        let mut after = self.pattern.clone();
        let Run { ran, refusal } = after.run(script);
        match refusal {
            // these are told of an operator, the others of the script
            Some(refusal @ Refusal { number: 5..=11 | 20, .. }) => return Err(format!("script, operator {}: {refusal}", ran + 1)),
            Some(refusal) => return Err(format!("script: {refusal}")),
            None => {}
        }
        let moves = moves(script);
        let wanted = moves.iter().filter(|own| **own == Move::Added).count();
        if wanted != added.len() {
            return Err(format!("points: {wanted} are needed for the corners that the script adds, {} given", added.len()));
        }
        let mut added = added.iter();
        for own in moves {
            match own {
                Move::Added => self.points.extend(added.next()),
                Move::Removed(corner) => drop(self.points.remove(corner)),
            }
        }
        self.pattern = after;
        Ok(())
    }

    fn export(&self) -> Result<Vec<u8>, String> {
        let mut list = [0; COORDINATES];
        for (own, point) in list.chunks_mut(3).zip(&self.points) {
            own.copy_from_slice(point);
        }
        let mut out = vec![0; OFF_BYTES];
        let written = self.pattern.export_off(&list, &mut out).map_err(told("pattern"))?;
        out.truncate(written);
        Ok(out)
    }
}

fn exported(text: &[u8], script: Option<&[u8]>, points: &str) -> Result<Vec<u8>, String> {
    let mut studio = Studio::import(text)?;
    let added = points::read(points).map_err(told("points"))?;
    match script {
        Some(script) => studio.run(script, &added)?,
        None if !added.is_empty() => return Err("points: there is no script that adds corners".to_string()),
        None => {}
    }
    studio.export()
}

fn file(name: &str) -> Result<Vec<u8>, String> {
    std::fs::read(name).map_err(|error| format!("{name}: {error}"))
}

fn answer(names: &[String]) -> Result<(), String> {
    let (text, script, points) = match names {
        [text] => (file(text)?, None, Vec::new()),
        [text, script] => (file(text)?, Some(file(script)?), Vec::new()),
        [text, script, points] => (file(text)?, Some(file(script)?), file(points)?),
        _ => return Err("studio TEXT [SCRIPT [POINTS]]".to_string()),
    };
    let text = exported(&text, script.as_deref(), &String::from_utf8_lossy(&points))?;
    let mut out = io::stdout();
    out.write_all(&text).and_then(|()| out.flush()).map_err(told("standard output"))
}

fn main() -> ExitCode {
    let names: Vec<String> = std::env::args().skip(1).collect();
    match answer(&names) {
        Ok(()) => ExitCode::SUCCESS,
        Err(words) => {
            eprintln!("{words}");
            ExitCode::FAILURE
        }
    }
}

#[cfg(test)]
mod tests;
