//! What the two OFF calls met: each kind of fault of a text's form, each kind of line that is no ring, each obstacle of a pattern,
//! coordinates beyond their limit, and ways there and back.

use crate::meanings::NUMBERS;
use crate::off_faults::LINES;
use crate::off_texts::COORDINATE_LIMIT;
use crate::patterns::Placed;
use crate::tables::{row, Row};
use second::{OffFault, OffObstacle};

const FAULTS: [(OffFault, &str); 9] = [
    (OffFault::Keyword, "keyword"),
    (OffFault::Ends, "ends"),
    (OffFault::NotANumber, "not a number"),
    (OffFault::Digits, "digits"),
    (OffFault::Minus, "minus"),
    (OffFault::CornerCount, "corner count"),
    (OffFault::PanelCount, "panel count"),
    (OffFault::Coordinate, "coordinate"),
    (OffFault::LeftOver, "left over"),
];

const OBSTACLES: [(OffObstacle, &str); 4] = [
    (OffObstacle::Block, "block"),
    (OffObstacle::LooseSeam, "loose seam"),
    (OffObstacle::SameEnds, "same ends"),
    (OffObstacle::NotOneRing, "not one ring"),
];

/// Coordinates beyond their limit, of a corner and of none; texts that came back; and those of patterns that a script changed.
const OTHERS: [(&str, usize); 4] = [("beyond, of a corner", 18), ("beyond, of none", 0), ("way there and back", 0), ("after a script", 0)];

type Counts = [u64; NUMBERS];

#[derive(Default)]
pub struct OffCoverage {
    faults: [Counts; FAULTS.len()],
    obstacles: [Counts; OBSTACLES.len()],
    lines: [[Counts; LINES.len()]; 2],
    others: [Counts; OTHERS.len()],
}

/// Whether a line can be refused so; the first one always has room.
fn of_line(later: usize, refusal: usize) -> bool {
    later == 1 || refusal != 6
}

/// How many cells must be reached.
#[cfg(test)]
pub const KINDS: usize = FAULTS.len() + OBSTACLES.len() + 2 * LINES.len() - 1 + OTHERS.len();

impl OffCoverage {
    /// Whether a text that was refused for its form has a fault.
    pub fn faulty(&mut self, fault: Option<OffFault>) -> bool {
        fault.map(|kind| self.faults[kind as usize][18] += 1).is_some()
    }

    /// Whether there is an obstacle to a pattern that was refused for one.
    pub fn hindered(&mut self, obstacle: Option<OffObstacle>) -> bool {
        obstacle.map(|kind| self.obstacles[kind as usize][19] += 1).is_some()
    }

    /// The answer to a text whose line at a place is no ring in that way.
    pub fn line(&mut self, way: usize, at: usize, number: u8) {
        self.lines[usize::from(at > 0)][way][usize::from(number)] += 1;
    }

    /// The coordinates of a pattern that was exported or refused for them; other answers say nothing of them.
    pub fn coordinates(&mut self, number: u8, placed: &Placed) {
        let corners = 3 * placed.pattern.count(0);
        let wild = |coordinate: &i32| !(-COORDINATE_LIMIT..=COORDINATE_LIMIT).contains(coordinate);
        if let (0 | 18, true) = (number, corners <= placed.coordinates.len()) {
            let (own, rest) = placed.coordinates.split_at(corners);
            self.others[0][usize::from(number)] += u64::from(own.iter().any(wild));
            self.others[1][0] += u64::from(number == 0 && rest.iter().any(wild));
        }
    }

    /// A text that was imported, exported, imported, and exported as it was.
    pub fn back(&mut self, number: u8) {
        self.others[2][usize::from(number)] += 1;
    }

    /// The text of a pattern that a script changed.
    pub fn after_script(&mut self, number: u8) {
        self.others[3][0] += u64::from(number == 0);
    }

    pub fn counts(&mut self) -> impl Iterator<Item = &mut u64> {
        let kinds = self.faults.iter_mut().chain(&mut self.obstacles).chain(&mut self.others);
        kinds.chain(self.lines.iter_mut().flatten()).flatten()
    }

    pub fn rows(&self) -> Vec<Row<'_>> {
        let faults = FAULTS.iter().zip(&self.faults).map(|(kind, counts)| row(&format!("text: {}", kind.1), &[18], counts));
        let obstacles = OBSTACLES.iter().zip(&self.obstacles).map(|(kind, counts)| row(&format!("pattern: {}", kind.1), &[19], counts));
        let lines = ["first line", "later line"].into_iter().zip(&self.lines).enumerate().flat_map(|(later, (name, lines))| {
            LINES.iter().zip(lines).map(move |((way, refusal), counts)| {
                let allowed = if of_line(later, *refusal) { std::slice::from_ref(refusal) } else { &[] };
                row(&format!("{name}: {way}"), allowed, counts)
            })
        });
        let others = OTHERS.iter().zip(&self.others).map(|((name, answer), counts)| row(name, std::slice::from_ref(answer), counts));
        faults.chain(obstacles).chain(lines).chain(others).filter(|row| !row.is_empty()).collect()
    }
}

#[cfg(test)]
mod tests {
    use super::*;
    use crate::coverage::Coverage;
    use crate::patterns::Pattern;

    fn missed(coverage: &Coverage, fault: &str) -> bool {
        coverage.print().iter().any(|own| own == fault)
    }

    #[test]
    fn every_kind_has_its_own_row() {
        assert!(FAULTS.iter().enumerate().all(|(at, kind)| at == kind.0 as usize));
        assert!(OBSTACLES.iter().enumerate().all(|(at, kind)| at == kind.0 as usize));
    }

    #[test]
    fn a_refusal_has_a_reason() {
        let mut coverage = Coverage::default();
        let placed = Placed { pattern: Pattern::empty(), coordinates: vec![0; 288] };
        coverage.imported(0, || None);
        coverage.imported(18, || Some(OffFault::Minus));
        coverage.exported(19, &placed, || Some(OffObstacle::SameEnds));
        assert!(!missed(&coverage, "text: minus never met answer 18") && missed(&coverage, "text: digits never met answer 18"));
        assert!(!missed(&coverage, "pattern: same ends never met answer 19") && missed(&coverage, "pattern: block never met answer 19"));
        let (text, pattern) = ("import_off answered 18 to a text of good form", "export_off answered 19 to a pattern that has a text");
        assert!(!missed(&coverage, text) && !missed(&coverage, pattern));
        coverage.imported(18, || None);
        coverage.exported(19, &placed, || None);
        assert!(missed(&coverage, text) && missed(&coverage, pattern));
    }

    #[test]
    fn a_line_is_refused_by_its_own_number() {
        let mut coverage = Coverage::default();
        coverage.off.line(0, 0, 5);
        coverage.off.line(4, 3, 0);
        assert!(!missed(&coverage, "first line: past the count never met answer 5"));
        assert!(missed(&coverage, "later line: past the count never met answer 5"));
        assert!(missed(&coverage, "later line: fewer than three met answer 0, 1 times"));
        assert!(missed(&coverage, "later line: no room never met answer 6"));
        assert!(!missed(&coverage, "first line: no room never met answer 6"));
    }

    #[test]
    fn coordinates_count_by_where_they_are_beyond() {
        let mut placed = Placed { pattern: Pattern::empty(), coordinates: vec![0; 288] };
        placed.pattern.counts[0] = 2;
        let (own, none) = ("beyond, of a corner never met answer 18", "beyond, of none never met answer 0");
        for (at, number, own_missed, none_missed) in [(5, 15, true, true), (5, 18, false, true), (6, 19, true, true), (6, 0, true, false)] {
            let mut coverage = Coverage::default();
            let mut wild = placed.clone();
            wild.coordinates[at] = -COORDINATE_LIMIT - 1;
            coverage.exported(number, &wild, || Some(OffObstacle::Block));
            assert_eq!((missed(&coverage, own), missed(&coverage, none)), (own_missed, none_missed), "{at} {number}");
        }
        let mut coverage = Coverage::default();
        placed.coordinates[0] = COORDINATE_LIMIT + 1;
        coverage.exported(0, &placed, || None);
        assert!(missed(&coverage, "beyond, of a corner met answer 0, 1 times"));
    }

    #[test]
    fn both_halves_are_added() {
        let [mut first, mut second] = [(); 2].map(|()| Coverage::default());
        second.imported(18, || Some(OffFault::Ends));
        second.off.back(0);
        second.off.after_script(19);
        first.add(second);
        assert!(!missed(&first, "text: ends never met answer 18") && !missed(&first, "way there and back never met answer 0"));
        assert!(missed(&first, "after a script never met answer 0"));
    }
}
