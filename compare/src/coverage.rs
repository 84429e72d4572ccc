//! Which numbers and places were answered, which operators were accepted or refused, which chains were accepted, and which damages found.

use crate::damaged::WAYS;
use crate::meanings::{carries, meanings, name, of_meaning, NUMBERS};
use crate::merges::Merges;
use crate::off_coverage::OffCoverage;
use crate::operators::CODES;
use crate::patterns::Placed;
use crate::places::Places;
use crate::tables::{row, table};
use second::{Fault, OffFault, OffObstacle};
use std::collections::BTreeSet;

#[derive(Clone, Copy)]
pub enum Call {
    Check,
    ReadMesh,
    WriteMesh,
    Euler,
    ApplyOperator,
    RunScript,
    Boundary,
    Carry,
    ImportOff,
    ExportOff,
}

/// Each call's name and the numbers that it may answer. All of them must be reached. 12 is in no list, as `meanings` says.
const CALLS: [(&str, &[usize]); 10] = [
    ("check", &[0, 1, 2]),
    ("read_mesh", &[0, 1, 3, 4, 5, 7]),
    ("write_mesh", &[0, 1, 2, 15]),
    ("euler", &[0, 1, 2]),
    ("apply_operator", &[0, 1, 2, 3, 4, 5, 6, 7, 8, 9, 10, 11, 14, 20]),
    ("run_script", &[0, 1, 2, 3, 4, 5, 6, 7, 8, 9, 10, 11, 13, 14, 20]),
    ("boundary", &[0, 1, 2, 4, 16]),
    ("carry", &[0, 1, 2, 3, 4, 5, 6, 7, 9, 10, 14, 16, 17]),
    ("import_off", &[0, 1, 5, 6, 7, 18]),
    ("export_off", &[0, 1, 2, 15, 18, 19]),
];

pub fn call_name(call: Call) -> &'static str {
    CALLS[call as usize].0
}

#[derive(Default)]
pub struct Coverage {
    answered: [[u64; NUMBERS]; 10],
    meant: [[u64; NUMBERS]; 17],
    pub merges: Merges,
    carried: [[u64; 4]; 17],
    bounded: [u64; 4],
    damaged: [[u64; 3]; WAYS.len()],
    places: Places,
    pub off: OffCoverage,
    strange: BTreeSet<String>,
}

impl Coverage {
    pub fn answer(&mut self, call: Call, number: u8) {
        match self.answered[call as usize].get_mut(usize::from(number)) {
            Some(count) => *count += 1,
            None => self.strange(format!("{} answered {number}", call_name(call))),
        }
    }

    fn strange(&mut self, text: String) {
        self.strange.insert(text);
    }

    /// The place of an answer. Where that is about the form of the bytes, `form` is the fault that the second program finds in them.
    pub fn place(&mut self, call: Call, number: u8, place: u32, form: Option<Option<Fault>>) {
        if !self.places.answer(call, number, place, form) {
            self.strange(format!("{} answered {number} with a wrong place", call_name(call)));
        }
    }

    /// The answer to one operator, counted only where its meaning was judged.
    pub fn operator(&mut self, code: u8, number: u8) {
        let place = CODES.iter().position(|&own| own == code);
        if let (Some(place), true) = (place, number == 0 || of_meaning(number)) {
            self.meant[place][usize::from(number)] += 1;
        }
    }

    /// The operators that ran, and the one that was refused after them.
    pub fn script(&mut self, bytes: &[u8], ran: u16, number: u8) {
        let mut rest = bytes.get(7..).unwrap_or(&[]);
        for _ in 0..ran {
            self.operator(rest[0], 0);
            rest = &rest[length(rest)..];
        }
        if let (true, Some(&code)) = (of_meaning(number), rest.first()) {
            self.operator(code, number);
        }
    }

    /// The answer to a chain whose boundary was asked for; one that is all 0 tells nothing.
    pub fn bounded(&mut self, dimension: u8, chain: &[i32], number: u8) {
        if number == 0 && chain.iter().any(|&coefficient| coefficient != 0) {
            self.bounded[usize::from(dimension)] += 1;
        }
    }

    /// The answer to a chain that was to be carried. Where the operator names a cell of the chain's dimension, one that is 0 there tells
    /// nothing, elsewhere one that is all 0.
    pub fn carried(&mut self, bytes: &[u8], dimension: u8, chain: &[i32], number: u8) {
        let place = CODES.iter().position(|own| bytes.first() == Some(own));
        if let (Some(place), 0) = (place, number) {
            let telling = match (CODES[place], bytes.get(1)) {
                (code @ 0x31.., Some(&cell)) if code & 15 == dimension => chain[usize::from(cell)] != 0,
                _ => chain.iter().any(|&coefficient| coefficient != 0),
            };
            self.carried[place][usize::from(dimension)] += u64::from(telling);
        }
    }

    /// What `check` answers to a pattern that was spoiled in one way; one that is still good does not count.
    pub fn damaged(&mut self, way: usize, number: u8) {
        if number == 2 {
            self.damaged[way][2] += 1;
        }
    }

    /// The answer to a text; `fault` finds what is wrong with its form.
    pub fn imported(&mut self, number: u8, fault: impl Fn() -> Option<OffFault>) {
        if number == 18 && !self.off.faulty(fault()) {
            self.strange("import_off answered 18 to a text of good form".to_string());
        }
    }

    /// The answer to a pattern that was to become a text; `obstacle` finds what stands against it.
    pub fn exported(&mut self, number: u8, placed: &Placed, obstacle: impl Fn() -> Option<OffObstacle>) {
        if number == 19 && !self.off.hindered(obstacle()) {
            self.strange("export_off answered 19 to a pattern that has a text".to_string());
        }
        self.off.coordinates(number, placed);
    }

    fn counts(&mut self) -> impl Iterator<Item = &mut u64> {
        let numbers = self.answered.iter_mut().chain(&mut self.meant).flatten();
        let chains = self.carried.iter_mut().chain([&mut self.bounded]).flatten();
        let damaged = self.damaged.iter_mut().flatten();
        numbers.chain(self.merges.counts()).chain(chains).chain(damaged).chain(self.places.counts()).chain(self.off.counts())
    }

    pub fn add(&mut self, mut other: Coverage) {
        for (count, more) in self.counts().zip(other.counts()) {
            *count += *more;
        }
        self.strange.extend(other.strange);
    }

    /// Prints the tables; everything that was missed, or was answered where it may not be.
    pub fn print(&self) -> Vec<String> {
        let calls = CALLS.iter().zip(&self.answered).map(|(&(name, allowed), counts)| row(name, allowed, counts));
        let operators = CODES.iter().zip(&self.meant).map(|(&code, counts)| row(&name(code), meanings(code), counts));
        let carried = CODES.iter().zip(&self.carried).filter(|(&code, _)| carries(code));
        let carried = carried.map(|(&code, counts)| row(&format!("carry {}", name(code)), &[0, 1, 2, 3], counts));
        let bounded = row("boundary", &[1, 2, 3], &self.bounded);
        let damaged = WAYS.iter().zip(&self.damaged).map(|(way, counts)| row(way, &[2], counts));
        let tables = [
            table("call", "answered", 0..NUMBERS, calls.collect()),
            table("operator", "answered", (0..1).chain(5..13).chain(20..21), operators.collect()),
            table("two cells", "answered", [0, 11, 12, 20].into_iter(), self.merges.rows()),
            table("chain of dim.", "accepted a chain of dimension", 0..4, std::iter::once(bounded).chain(carried).collect()),
            table("damage", "met refusal", 2..3, damaged.collect()),
            table("place", "was the place of", [3, 4, 14].into_iter(), self.places.rows()),
            table("OFF", "met answer", [0, 5, 6, 7, 18, 19].into_iter(), self.off.rows()),
        ];
        self.strange.iter().cloned().chain(tables.into_iter().flatten()).collect()
    }
}

/// How many bytes the operator at the front of bytes of good form has.
fn length(bytes: &[u8]) -> usize {
    let at = |place: usize| usize::from(bytes[place]);
    match bytes[0] {
        0x10 => 1,
        0x11 => 3,
        0x12 | 0x13 => 2 + 2 * at(1),
        0x32 | 0x33 => 3 + at(2),
        _ => 2,
    }
}

#[cfg(test)]
mod tests {
    use super::*;
    use crate::{merges, off_coverage, places};
    use second::Field;

    fn missed(coverage: &Coverage, fault: &str) -> bool {
        coverage.print().iter().any(|own| own == fault)
    }

    #[test]
    fn every_row_must_be_reached() {
        let faults = Coverage::default().print();
        let numbers = CALLS.iter().map(|call| call.1.len()).chain(CODES.map(|code| meanings(code).len()));
        let carried = 4 * CODES.iter().filter(|&&code| carries(code)).count();
        let placed: usize = places::CALLS.map(places::kinds).iter().sum();
        let others = WAYS.len() + placed + merges::ROWS + off_coverage::KINDS;
        assert_eq!(faults.len(), numbers.sum::<usize>() + carried + 3 + others);
    }

    #[test]
    fn a_number_that_may_not_be_answered_is_a_fault() {
        let mut coverage = Coverage::default();
        coverage.answer(Call::Check, 3);
        coverage.answer(Call::Check, 20);
        coverage.answer(Call::Check, 21);
        coverage.operator(0x51, 6);
        for fault in ["check answered 3, 1 times", "check answered 20, 1 times", "check answered 21", "flip 1 answered 6, 1 times"] {
            assert!(missed(&coverage, fault), "{fault}");
        }
    }

    #[test]
    fn a_merge_is_never_answered_12() {
        let mut coverage = Coverage::default();
        coverage.answer(Call::ApplyOperator, 12);
        coverage.answer(Call::RunScript, 12);
        coverage.operator(0x40, 12);
        coverage.script(&[4, 2, 2, 0, 0, 1, 0, 0x41, 0], 0, 12);
        for who in ["apply_operator", "run_script", "merge 0", "merge 1"] {
            assert!(missed(&coverage, &format!("{who} answered 12, 1 times")), "{who}");
        }
    }

    #[test]
    fn only_a_chain_that_tells_something_counts() {
        let mut coverage = Coverage::default();
        let fault = "carry flip 2 never accepted a chain of dimension 2";
        for (chain, number) in [([0, 0], 0), ([5, 0], 0), ([0, 5], 16)] {
            coverage.carried(&[0x52, 1], 2, &chain, number);
            assert!(missed(&coverage, fault));
        }
        coverage.carried(&[0x52, 1], 2, &[0, 5], 0);
        assert!(!missed(&coverage, fault));
        let fault = "boundary never accepted a chain of dimension 3";
        for (chain, number) in [([0, 0], 0), ([5, 0], 2)] {
            coverage.bounded(3, &chain, number);
            assert!(missed(&coverage, fault));
        }
        coverage.bounded(3, &[5, 0], 0);
        assert!(!missed(&coverage, fault));
    }

    #[test]
    fn a_place_that_may_not_be_answered_is_a_fault() {
        let mut coverage = Coverage::default();
        coverage.place(Call::RunScript, 13, 5, None);
        assert!(missed(&coverage, "run_script answered 13 with a wrong place"));
        for (number, field) in [(4, Field::Code), (4, Field::CellNumber), (14, Field::Sign), (4, Field::Sign)] {
            coverage.place(Call::ReadMesh, number, 5, Some(Some(Fault { number, place: 5, field })));
        }
        for fault in ["code was the place of 4", "cell number was the place of 4", "sign was the place of 14"] {
            assert!(missed(&coverage, &format!("read_mesh: {fault}, 1 times")), "{fault}");
        }
        assert!(missed(&coverage, "read_mesh: sign never was the place of 3"));
        assert!(!missed(&coverage, "read_mesh: sign never was the place of 4"));
    }

    #[test]
    fn only_a_pattern_that_is_not_good_counts_as_spoiled() {
        let mut coverage = Coverage::default();
        coverage.damaged(0, 0);
        assert!(missed(&coverage, "count over 96 never met refusal 2"));
        coverage.damaged(0, 2);
        assert!(!missed(&coverage, "count over 96 never met refusal 2"));
    }

    #[test]
    fn both_halves_are_added() {
        let [mut first, mut second] = [(); 2].map(|()| Coverage::default());
        first.damaged(3, 2);
        second.damaged(4, 2);
        second.bounded(1, &[1], 0);
        second.place(Call::Carry, 14, 2, Some(Some(Fault { number: 14, place: 2, field: Field::LeftOver })));
        first.add(second);
        for fault in [
            "entry outside never met refusal 2",
            "seam: no tail never met refusal 2",
            "boundary never accepted a chain of dimension 1",
            "carry: left over never was the place of 14",
        ] {
            assert!(!missed(&first, fault), "{fault}");
        }
    }
}
