//! The two OFF calls at random.

use crate::damaged;
use crate::off_faults;
use crate::off_sweeps::{placed, refining, BEYOND, LIST_LENGTH, LIST_LENGTHS};
use crate::off_texts;
use crate::patterns::{Pattern, Placed};
use crate::rounds::Rounds;

impl Rounds<'_> {
    /// A text, whole or damaged, over what the lent matrices hold.
    pub fn import(&mut self, over: &Pattern) {
        let mut text = match self.random.below(3) {
            0 => off_faults::any(&mut self.random),
            _ => off_texts::any(&mut self.random).scattered(&mut self.random),
        };
        if self.random.one_in(4) {
            text = damaged::bytes(&mut self.random, &text);
        }
        let length = if self.random.one_in(24) { self.random.pick(&LIST_LENGTHS) } else { LIST_LENGTH };
        let coordinates = (0..length).map(|_| self.random.next() as i32).collect();
        self.comparison.import_off(&text, &Placed { pattern: over.clone(), coordinates });
    }

    /// The lent pattern, or that of a text after a script.
    pub fn export(&mut self, lent: &Pattern) {
        let refined = self.refined();
        let pattern = if self.random.one_in(3) { lent.clone() } else { damaged::lent(&mut self.random, &refined) };
        let mut placed = placed(&mut self.random, pattern);
        match self.random.below(16) {
            0 => placed.coordinates[self.random.below(LIST_LENGTH)] = self.random.pick(&BEYOND),
            1 => placed.coordinates.resize(self.random.pick(&LIST_LENGTHS), 0),
            _ => {}
        }
        // Mostly all that it needs, found on the way that the second program goes.
        let ([m1, m2, m3], mut room) = (&placed.pattern.matrices, vec![0; 30_000]);
        let needed = second::export_off(placed.pattern.counts, m1, m2, m3, &placed.coordinates, &mut room).1;
        let length = (needed + self.random.below(40)).saturating_sub(self.random.below(20));
        let out = self.random.junk(length);
        self.comparison.export_off(&placed, &out);
    }

    /// The pattern of a text, or the empty one where it is refused, after a script.
    fn refined(&mut self) -> Pattern {
        let mut pattern = Pattern::empty();
        let text = off_texts::any(&mut self.random).scattered(&mut self.random);
        let [m1, m2, m3] = &mut pattern.matrices;
        (_, pattern.counts) = second::import_off(&text, m1, m2, m3, &mut [0; LIST_LENGTH]);
        let operators = self.random.below(6);
        let script = refining(&mut self.random, &pattern, operators);
        let [m1, m2, m3] = &mut pattern.matrices;
        pattern.counts = second::run_script(pattern.counts, m1, m2, m3, &script).1;
        pattern
    }
}
