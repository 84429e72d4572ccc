//! The sweeps on patterns of all sizes: numbers, lengths, counts and coefficients at and past
//! their limits, and every way of not being good.

use crate::calls::Chain;
use crate::chains::{beyond, out, BOUNDARY_LIMIT, CARRY_LIMIT, DIMENSIONS};
use crate::damaged::{spoiled, CHAIN_LENGTHS, MATRIX_LENGTHS, WAYS};
use crate::off_sweeps::LIST_LENGTH;
use crate::operators::{fitting, mistaken, CODES};
use crate::patterns::{Pattern, Placed};
use crate::scripts::script;
use crate::sweeps::Sweeps;
use second::LIMIT;

impl Sweeps<'_> {
    /// Every operator with the first and last numbers and those past the count, and with mistakes.
    pub fn limits(&mut self, pattern: &Pattern) {
        for code in CODES {
            let count = pattern.counts[usize::from(code & 15)];
            let operator = fitting(&mut self.random, pattern, code);
            for number in [0, 1, count / 2, count.wrapping_sub(1), count, 95, 96, 255] {
                let mut bytes = operator.clone();
                if let (true, Some(place)) = (code >= 0x20, bytes.get_mut(1)) {
                    *place = number;
                }
                self.operator_calls(pattern, &bytes);
            }
            for _ in 0..4 {
                let bytes = mistaken(&mut self.random, pattern, code);
                self.operator_calls(pattern, &bytes);
            }
        }
    }

    fn operator_calls(&mut self, pattern: &Pattern, bytes: &[u8]) {
        self.comparison.apply_operator(pattern, bytes);
        let lone = script(pattern.counts, &[bytes.to_vec()]);
        self.comparison.run_script(pattern, &lone);
        self.carried(pattern, bytes);
    }

    pub fn outputs(&mut self, pattern: &Pattern, needed: usize) {
        self.comparison.check(pattern);
        self.comparison.euler(pattern);
        for room in (0..needed + 9).filter(|&room| room < 40 || room + 9 > needed) {
            let out = self.random.junk(room);
            self.comparison.write_mesh(pattern, &out);
        }
    }

    /// Every call on the pattern; what `check` answers.
    fn every_call(&mut self, pattern: &Pattern, operator: &[u8]) -> u8 {
        let answer = self.comparison.check(pattern);
        self.comparison.euler(pattern);
        let out = self.random.junk(64);
        self.comparison.write_mesh(pattern, &out);
        self.comparison.apply_operator(pattern, operator);
        self.comparison.run_script(pattern, &script(pattern.counts, &[operator.to_vec()]));
        let chain = Chain { dimension: 1, coefficients: &[0; LIMIT], out: &[7; LIMIT] };
        self.comparison.boundary(pattern, &chain);
        self.comparison.carry(pattern, operator, &chain);
        let placed = Placed { pattern: pattern.clone(), coordinates: vec![0; LIST_LENGTH] };
        self.comparison.export_off(&placed, &out);
        answer
    }

    pub fn spoiled(&mut self, pattern: &Pattern) {
        for way in 0..WAYS.len() {
            for _ in 0..2 {
                let spoiled = spoiled(&mut self.random, pattern, way);
                let answer = self.every_call(&spoiled, &[0x10]);
                self.comparison.coverage.damaged(way, answer);
            }
        }
    }

    pub fn lengths(&mut self, pattern: &Pattern) {
        let mesh = pattern.mesh().unwrap_or_default();
        for length in MATRIX_LENGTHS {
            for matrix in 0..3 {
                let mut resized = pattern.clone();
                resized.matrices[matrix].resize(length, 0);
                self.every_call(&resized, &[0x10]);
                self.comparison.read_mesh(&mesh, &resized);
                self.comparison.import_off(b"OFF 0 0 0", &Placed { pattern: resized, coordinates: vec![7; LIST_LENGTH] });
            }
        }
    }

    pub fn chains(&mut self, pattern: &Pattern) {
        for dimension in DIMENSIONS {
            let count = pattern.counts.get(usize::from(dimension)).map_or(LIMIT, |&count| count.into());
            for limit in [BOUNDARY_LIMIT, CARRY_LIMIT] {
                let full = [vec![limit; count], vec![0; LIMIT - count]].concat();
                self.both_chains(pattern, dimension, &full);
                let negative: Vec<i32> = full.iter().map(|coefficient| -coefficient).collect();
                self.both_chains(pattern, dimension, &negative);
                for value in beyond(limit).into_iter().chain([1]) {
                    let mut chain = full.clone();
                    chain[self.random.below(LIMIT)] = value;
                    self.both_chains(pattern, dimension, &chain);
                }
            }
            for length in CHAIN_LENGTHS {
                self.both_chains(pattern, dimension, &vec![0; length]);
                let (coefficients, out) = (&[0; LIMIT], &vec![7; length]);
                let chain = Chain { dimension, coefficients, out };
                self.comparison.boundary(pattern, &chain);
                self.comparison.carry(pattern, &[0x10], &chain);
            }
        }
    }

    fn both_chains(&mut self, pattern: &Pattern, dimension: u8, coefficients: &[i32]) {
        let code = self.random.pick(&CODES);
        let operator = fitting(&mut self.random, pattern, code);
        let out = &out(&mut self.random);
        let chain = Chain { dimension, coefficients, out };
        self.comparison.boundary(pattern, &chain);
        self.comparison.carry(pattern, &operator, &chain);
    }
}
