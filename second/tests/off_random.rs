//! OFF texts of chance: round trips against a plain model, and texts with faults.

mod common;

use common::{import_refusal, Dice, Lent, Placed};

/// Corners at places of chance, and rings of them.
struct Model {
    points: Vec<[i32; 3]>,
    rings: Vec<Vec<usize>>,
}

impl Model {
    /// At most ten rings of nine corners, so that the seams always fit.
    fn new(dice: &mut Dice) -> Model {
        let corners = if dice.below(4) == 0 { 3 + dice.below(94) } else { 3 + dice.below(6) };
        let points = (0..corners).map(|_| [0; 3].map(|_| dice.below(2_097_153) as i32 - 1_048_576)).collect();
        let rings = (0..dice.below(11)).map(|_| ring(dice, corners)).collect();
        Model { points, rings }
    }

    /// Tail and head of each seam, as first met.
    fn seams(&self) -> Vec<(usize, usize)> {
        let mut seams = Vec::new();
        for (from, to) in self.rings.iter().flat_map(|ring| steps(ring)) {
            if !seams.contains(&(from, to)) && !seams.contains(&(to, from)) {
                seams.push((from, to));
            }
        }
        seams
    }

    /// The pattern and coordinates, entry by entry.
    fn placed(&self) -> Placed {
        let mut placed = Placed::empty();
        let seams = self.seams();
        placed.lent.counts = [self.points.len() as u8, seams.len() as u8, self.rings.len() as u8, 0];
        for (seam, &(tail, head)) in seams.iter().enumerate() {
            placed.lent.m1[96 * seam + tail] = -1;
            placed.lent.m1[96 * seam + head] = 1;
            for (panel, ring) in self.rings.iter().enumerate() {
                let has = |step: &(usize, usize)| steps(ring).contains(step);
                placed.lent.m2[96 * panel + seam] = i8::from(has(&(tail, head))) - i8::from(has(&(head, tail)));
            }
        }
        for (own, point) in placed.coordinates.chunks_mut(3).zip(&self.points) {
            own.copy_from_slice(point);
        }
        placed
    }

    /// The words of a text with its rings as they are and any number as the count of seams.
    fn words(&self, seams: usize) -> Vec<String> {
        let mut words = vec!["OFF".to_string()];
        words.extend([self.points.len(), self.rings.len(), seams].map(|count| count.to_string()));
        words.extend(self.points.iter().flatten().map(|coordinate| coordinate.to_string()));
        for ring in &self.rings {
            words.push(ring.len().to_string());
            words.extend(ring.iter().map(|corner| corner.to_string()));
        }
        words
    }

    /// The text that goes out, its rings being turned to their lowest corner.
    fn text(&self) -> String {
        let mut text = format!("OFF\n{} {} {}\n", self.points.len(), self.rings.len(), self.seams().len());
        for [x, y, z] in &self.points {
            text += &format!("{x} {y} {z}\n");
        }
        for ring in &self.rings {
            let mut turned = ring.clone();
            while turned.iter().any(|&corner| corner < turned[0]) {
                turned.rotate_left(1);
            }
            let words: Vec<String> = turned.iter().map(|corner| corner.to_string()).collect();
            text += &format!("{} {}\n", ring.len(), words.join(" "));
        }
        text
    }
}

/// Three to nine different corners.
fn ring(dice: &mut Dice, corners: usize) -> Vec<usize> {
    let mut rest: Vec<usize> = (0..corners).collect();
    let length = 3 + dice.below(corners.min(9) - 2);
    (0..length).map(|_| rest.swap_remove(dice.below(rest.len()))).collect()
}

fn steps(ring: &[usize]) -> Vec<(usize, usize)> {
    (0..ring.len()).map(|at| (ring[at], ring[(at + 1) % ring.len()])).collect()
}

/// Words with separators of chance between them.
fn scattered(dice: &mut Dice, words: &[String]) -> String {
    let separators = [" ", "\n", "\t", "\r\n", "  ", " \r \n\t"];
    words.iter().map(|word| word.clone() + separators[dice.below(separators.len())]).collect()
}

#[test]
fn round_trips() {
    let mut dice = Dice(21);
    let mut shared = 0;
    for _ in 0..300 {
        let model = Model::new(&mut dice);
        let words = model.words(dice.below(10_000_000));
        let imported = Placed::imported(&scattered(&mut dice, &words));
        assert_eq!(imported, model.placed());
        assert_eq!(imported.lent.check(), 0);
        let text = imported.text();
        assert_eq!(text, model.text());
        assert_eq!(Placed::imported(&text).text(), text);
        let steps: usize = model.rings.iter().map(Vec::len).sum();
        shared += usize::from(steps > model.seams().len());
    }
    assert!(shared > 100, "{shared}");
}

#[test]
fn flips_going_out() {
    let mut dice = Dice(22);
    let mut flipped = 0;
    for _ in 0..200 {
        let mut model = Model::new(&mut dice);
        let Placed { mut lent, coordinates } = model.placed();
        for (dim, code) in [(1, 0x51), (2, 0x52)] {
            for cell in (0..lent.counts[dim]).filter(|_| dice.below(2) == 0) {
                assert_eq!(lent.apply(&[code, cell]), 0);
                if dim == 2 {
                    model.rings[usize::from(cell)].reverse();
                    flipped += 1;
                }
            }
        }
        assert_eq!(Placed { lent, coordinates }.text(), model.text(), "a seam's direction is not seen, a panel's is");
    }
    assert!(flipped > 200, "{flipped}");
}

/// A text of chance with one to three of its bytes exchanged, left out or put in.
fn spoiled(dice: &mut Dice) -> Vec<u8> {
    let model = Model::new(dice);
    let mut text = scattered(dice, &model.words(0)).into_bytes();
    for _ in 0..=dice.below(3) {
        let at = dice.below(text.len());
        let bytes = b"0123456789012345678901234567890123456789----  \t\r\n\n+.xO#\0\x0b\xff";
        let byte = bytes[dice.below(bytes.len())];
        match dice.below(3) {
            0 => text[at] = byte,
            1 => text.insert(at, byte),
            _ => drop(text.remove(at)),
        }
    }
    text
}

#[test]
fn any_text_is_answered() {
    let mut dice = Dice(23);
    let mut refused = [0; 20];
    let mut faults = [0; 9];
    for _ in 0..6_000 {
        let text = spoiled(&mut dice);
        let refusal = import_refusal(&text);
        refused[usize::from(refusal)] += 1;
        if let Some(fault) = second::off_fault(&text) {
            faults[fault as usize] += 1;
        }
        if refusal == 0 {
            let mut imported = Placed::soiled();
            imported.import(&text);
            assert_eq!(imported.lent.check(), 0);
            let Lent { counts, m1, m2, m3 } = &imported.lent;
            assert_eq!(second::off_obstacle(*counts, m1, m2, m3), None, "what comes in can go out");
            let text = imported.text();
            let again = Placed::imported(&text);
            assert_eq!((again.text(), again.coordinates), (text, imported.coordinates));
        }
    }
    for refusal in [0, 5, 7, 18] {
        assert!(refused[refusal] > 0, "{refusal} in {refused:?}");
    }
    assert!(faults.iter().all(|&times| times > 0), "{faults:?}");
}
