//! The sweeps of the two OFF calls: texts with every fault, patterns with every obstacle, every length of output, ways there and back.

use crate::meshes;
use crate::off_faults::{variants, with_line, LINES};
use crate::off_texts::{self, coordinate, largest, lines_of, same_ring, triangles, COORDINATE_LIMIT};
use crate::operators::fitting;
use crate::patterns::{Pattern, Placed};
use crate::random::Random;
use crate::scripts::script;
use crate::sweeps::Sweeps;
use second::LIMIT;

/// Entries of a list of coordinates.
pub const LIST_LENGTH: usize = 3 * LIMIT;

/// Lengths of such lists that are wrong.
pub const LIST_LENGTHS: [usize; 6] = [0, 1, LIMIT, LIST_LENGTH - 1, LIST_LENGTH + 1, 4 * LIST_LENGTH];

/// Coordinates of which none is in range.
pub const BEYOND: [i32; 6] = [COORDINATE_LIMIT + 1, -COORDINATE_LIMIT - 1, 10_000_000, -10_000_000, i32::MAX, i32::MIN];

/// Room enough for every text.
const ROOM: usize = 30_000;

/// Operators that keep many patterns such that they have a text: splits and flips, and a panel made of seams that are there.
const REFINING: [u8; 5] = [0x31, 0x32, 0x51, 0x52, 0x12];

/// The pattern with corners at places of chance; what stands past them is of no matter, and of any value.
pub fn placed(random: &mut Random, pattern: Pattern) -> Placed {
    let mut coordinates: Vec<i32> = (0..LIST_LENGTH).map(|_| random.next() as i32).collect();
    for own in coordinates.iter_mut().take(3 * pattern.count(0)) {
        *own = coordinate(random);
    }
    Placed { pattern, coordinates }
}

/// The bytes of a script of such operators that the pattern accepts.
pub fn refining(random: &mut Random, pattern: &Pattern, operators: usize) -> Vec<u8> {
    let mut now = pattern.clone();
    let mut list = Vec::new();
    for _ in 0..operators {
        let code = random.pick(&REFINING);
        let operator = fitting(random, &now, code);
        if now.apply(&operator) {
            list.push(operator);
        }
    }
    script(pattern.counts, &list)
}

impl Sweeps<'_> {
    pub fn off(&mut self) {
        self.texts();
        self.long_texts();
        self.lines();
        for _ in 0..400 {
            let text = off_texts::any(&mut self.random).scattered(&mut self.random);
            if let Some(placed) = self.there_and_back(&text) {
                self.after_script(&placed.pattern);
            }
        }
        self.rooms();
        self.list_lengths();
        for mesh in meshes::all() {
            let placed = placed(&mut self.random, Pattern::from_mesh(&mesh));
            self.exported(&placed);
            self.coordinates(&placed);
        }
        self.obstacles();
    }

    /// A pattern and a list full of junk, to be read over.
    fn junk_placed(&mut self) -> Placed {
        let coordinates = (0..LIST_LENGTH).map(|_| self.random.next() as i32).collect();
        Placed { pattern: self.junk(), coordinates }
    }

    fn exported(&mut self, placed: &Placed) -> (u8, Vec<u8>) {
        let out = self.random.junk(ROOM);
        self.comparison.export_off(placed, &out)
    }

    /// Small texts with every word, byte and length; the import leaves no trace of the junk.
    fn texts(&mut self) {
        let junk = self.junk_placed();
        for own in [
            "OFF 3 1 0 5 -6 0 1 0 0 0 2 0 3 0 1 2",
            "OFF 4 2 5 0 0 0 10 0 0 10 10 0 0 10 0 3 0 1 2 3 2 3 0",
            "OFF 0 0 0",
            "OFF 1 0 7 1 2 3",
        ] {
            let words: Vec<String> = own.split(' ').map(str::to_string).collect();
            for text in variants(&words) {
                self.comparison.import_off(&text, &junk);
            }
        }
        // A cut at every byte where corners have two digits and lines end in blanks.
        let text = off_texts::any(&mut Random::new(4)).scattered(&mut self.random);
        for text in [text, triangles(3).scattered(&mut self.random)] {
            for end in 0..=text.len() {
                self.comparison.import_off(&text[..end], &junk);
            }
        }
    }

    /// Texts of more than 64 KiB, by their blanks, their zeros, or a line; accepted, and refused at their end.
    fn long_texts(&mut self) {
        let junk = self.junk_placed();
        let blanks = vec![b' '; 70_000];
        let whole = "OFF 3 1 0 0 0 0 0 0 0 0 0 0 3 0 1 2";
        let line = |last: &str| format!("OFF 3 1 0 0 0 0 0 0 0 0 0 0 40001 {}{last}", "0 ".repeat(40_000)).into_bytes();
        let [head, tail] = [&whole[..14], &whole[14..]].map(str::as_bytes);
        let texts = [
            [&blanks, whole.as_bytes()].concat(),
            [whole.as_bytes(), &blanks].concat(),
            [head, &blanks, tail].concat(),
            [whole.as_bytes(), &blanks, b"x"].concat(),
            [b"OFF ".to_vec(), vec![b'0'; 70_000]].concat(),
            line("0"),
            line("3"),
            line(""),
            largest().padded(),
            [largest().padded(), b"0".to_vec()].concat(),
        ];
        for text in texts {
            self.comparison.import_off(&text, &junk);
            self.there_and_back(&text);
        }
    }

    fn lines(&mut self) {
        let junk = self.junk_placed();
        for way in (0..LINES.len()).flat_map(|way| [way; 40]) {
            let (text, at) = with_line(&mut self.random, way);
            let (refusal, _) = self.comparison.import_off(&text.scattered(&mut self.random), &junk);
            self.comparison.coverage.off.line(way, at, refusal);
        }
    }

    /// Imports the text and, where it is accepted, what is exported of it, again and again.
    pub fn there_and_back(&mut self, text: &[u8]) -> Option<Placed> {
        let junk = self.junk_placed();
        let (refusal, first) = self.comparison.import_off(text, &junk);
        if refusal != 0 {
            return None;
        }
        let (answer, own) = self.exported(&first);
        let told = || format!("  text {}\n  exported {}\n", String::from_utf8_lossy(text), String::from_utf8_lossy(&own));
        self.comparison.promise(answer == 0, "what is imported is exported", told);
        let rings = lines_of(text).iter().zip(&lines_of(&own)).all(|(one, other)| same_ring(one, other));
        self.comparison.promise(rings, "each panel is the same ring up to its starting corner", told);
        let (_, second) = self.comparison.import_off(&own, &junk);
        self.comparison.promise(second.coordinates == first.coordinates, "the coordinates come back", told);
        let (_, again) = self.exported(&second);
        self.comparison.promise(again == own, "what is exported comes back to the byte", told);
        let (_, third) = self.comparison.import_off(&again, &junk);
        let (ours, theirs) = (&second.pattern, &third.pattern);
        self.comparison.promise(ours.counts == theirs.counts && ours.matrices == theirs.matrices, "the matrices come back", told);
        self.comparison.coverage.off.back(answer);
        Some(first)
    }

    /// A script on an imported pattern, then its text.
    fn after_script(&mut self, pattern: &Pattern) {
        let operators = 1 + self.random.below(9);
        let bytes = refining(&mut self.random, pattern, operators);
        let changed = self.comparison.run_script(pattern, &bytes);
        let placed = placed(&mut self.random, changed);
        let (answer, text) = self.exported(&placed);
        self.comparison.coverage.off.after_script(if bytes.len() > 7 { answer } else { 19 });
        if answer == 0 {
            self.there_and_back(&text);
        }
    }

    /// Every length of the output, for some texts.
    fn rooms(&mut self) {
        for text in [off_texts::any(&mut Random::new(4)), triangles(2), largest()] {
            let (_, placed) = {
                let junk = self.junk_placed();
                self.comparison.import_off(&text.padded(), &junk)
            };
            let needed = self.exported(&placed).1.len();
            for room in (0..needed + 9).filter(|&room| needed < 2_000 || room + 9 > needed || room % 997 == 0) {
                let out = self.random.junk(room);
                self.comparison.export_off(&placed, &out);
            }
        }
    }

    fn list_lengths(&mut self) {
        let text = triangles(2).padded();
        let junk = self.junk_placed();
        for length in LIST_LENGTHS {
            let mut resized = junk.clone();
            resized.coordinates.resize(length, 7);
            for text in [&text[..], b"", b"OFF 3"] {
                self.comparison.import_off(text, &resized);
            }
            let (_, mut placed) = self.comparison.import_off(&text, &junk);
            placed.coordinates.resize(length, 0);
            self.exported(&placed);
            placed.pattern.counts[0] += 1;
            self.exported(&placed);
        }
    }

    /// A coordinate beyond its limit at any place, of a corner or of none.
    fn coordinates(&mut self, placed: &Placed) {
        let corners = 3 * placed.pattern.count(0);
        let edges = [0, corners.saturating_sub(1), corners, LIST_LENGTH - 1];
        let all = (0..LIST_LENGTH).filter(|at| edges.contains(at) || at % 17 == 0);
        for (at, value) in all.zip(BEYOND.iter().cycle()) {
            let mut wild = placed.clone();
            wild.coordinates[at] = *value;
            self.exported(&wild);
            wild.coordinates[at] = COORDINATE_LIMIT * value.signum();
            self.exported(&wild);
        }
    }

    /// Patterns with each of the reasons against a text, alone and together.
    fn obstacles(&mut self) {
        for lines in [[[0, 1, 2], [3, 4, 5]], [[0, 1, 2], [0, 3, 4]], [[0, 1, 2], [4, 3, 2]], [[3, 1, 2], [4, 3, 5]]] {
            let text = off_texts::Text { points: vec![[0; 3]; 6], lines: lines.map(Vec::from).into() };
            let (_, Placed { pattern, .. }) = {
                let junk = self.junk_placed();
                self.comparison.import_off(&text.padded(), &junk)
            };
            // A panel of both rings, a seam beside one, a panel between the two, a block of a panel and its copy.
            let both = [&[0x12, 6][..], &(0..6).flat_map(|seam| [seam, 1]).collect::<Vec<u8>>()].concat();
            let operators: [&[u8]; 5] = [&both, &[0x11, 0, 1], &[0x32, 0, 1, 0], &[0x12, 3, 0, 1, 1, 1, 2, 1], &[0x13, 2, 0, 1, 2, 2]];
            for chosen in 0..32u8 {
                let mut changed = pattern.clone();
                for (at, operator) in operators.iter().enumerate() {
                    if chosen >> at & 1 == 1 {
                        changed.apply(operator);
                    }
                }
                let placed = placed(&mut self.random, changed);
                self.exported(&placed);
            }
        }
    }
}
