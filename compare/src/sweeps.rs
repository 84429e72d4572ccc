//! The inputs that are gone through one by one: every place, length and value of some files.

use crate::calls::{Chain, Comparison};
use crate::chains::{out, sound, CARRY_LIMIT};
use crate::damaged::variants;
use crate::meshes::{self, grid, parallel, ring, simplex};
use crate::operators::{fitting, split, CODES};
use crate::patterns::Pattern;
use crate::random::Random;
use crate::scripts::{self, of_length, script, OPERATOR_LIMIT, SCRIPT_LIMIT};

pub struct Sweeps<'a> {
    pub comparison: &'a mut Comparison,
    pub random: Random,
}

/// Patterns small enough to be tried at every byte.
fn small() -> Vec<Pattern> {
    let meshes = [simplex(3), simplex(4), grid([1, 1, 1]), ring(4, 5), parallel([3, 6, 5, 4], 4)];
    meshes.map(|mesh| Pattern::from_mesh(&mesh)).into()
}

impl<'a> Sweeps<'a> {
    pub fn new(comparison: &'a mut Comparison, random: Random) -> Self {
        Sweeps { comparison, random }
    }

    pub fn run(&mut self) {
        self.meshes();
        for pattern in small() {
            self.operators(&pattern);
            self.scripts(&pattern);
        }
        self.script_limits();
        for mesh in meshes::all() {
            let pattern = Pattern::from_mesh(&mesh);
            self.limits(&pattern);
            self.merges(&pattern);
            self.outputs(&pattern, mesh.len());
            self.spoiled(&pattern);
            self.lengths(&pattern);
            self.chains(&pattern);
        }
    }

    /// Matrices full of junk, to be read over.
    pub fn junk(&mut self) -> Pattern {
        let mut pattern = Pattern::empty();
        for matrix in &mut pattern.matrices {
            *matrix = self.random.junk(matrix.len()).iter().map(|&byte| byte as i8).collect();
        }
        pattern
    }

    fn meshes(&mut self) {
        let junk = self.junk();
        for pattern in small() {
            let mesh = pattern.mesh().unwrap_or_default();
            for bytes in variants(&mesh) {
                self.comparison.read_mesh(&bytes, &junk);
            }
        }
        for mesh in meshes::all() {
            let near_end = mesh.len().saturating_sub(40);
            for end in (0..=mesh.len()).filter(|end| *end < 240 || *end > near_end || end % 397 == 0) {
                self.comparison.read_mesh(&mesh[..end], &junk);
            }
            self.comparison.read_mesh(&[mesh, vec![4, 0, 0]].concat(), &junk);
        }
    }

    fn operators(&mut self, pattern: &Pattern) {
        for code in CODES {
            let operator = fitting(&mut self.random, pattern, code);
            for bytes in variants(&operator) {
                self.comparison.apply_operator(pattern, &bytes);
                self.carried(pattern, &bytes);
            }
        }
        for code in 0..=255 {
            for more in 0..4 {
                let bytes = [&[code][..], &[1, 1, 1][..more]].concat();
                self.comparison.apply_operator(pattern, &bytes);
                self.carried(pattern, &bytes);
            }
        }
    }

    /// Every merge, alone and after its cell was split: then the cells beside it share both halves.
    fn merges(&mut self, pattern: &Pattern) {
        let cells = (0..3).flat_map(|dim| (0..pattern.count(dim)).map(move |cell| (dim, cell)));
        for (dim, cell) in cells.filter(|_| pattern.size() < 100) {
            let merge = vec![0x40 + dim as u8, cell as u8];
            self.comparison.apply_operator(pattern, &merge);
            if dim > 0 {
                let split = split(&mut self.random, pattern, dim, cell);
                self.comparison.run_script(pattern, &script(pattern.counts, &[split, merge]));
            }
        }
    }

    pub fn carried(&mut self, pattern: &Pattern, bytes: &[u8]) {
        let dim = self.random.below(4);
        let coefficients = &sound(&mut self.random, pattern.count(dim), CARRY_LIMIT);
        let out = &out(&mut self.random);
        let chain = Chain { dimension: dim as u8, coefficients, out };
        self.comparison.carry(pattern, bytes, &chain);
    }

    fn scripts(&mut self, pattern: &Pattern) {
        let (operators, _) = scripts::accepted(&mut self.random, pattern, 9, 60);
        let whole = script(pattern.counts, &operators);
        let every = scripts::every_operator(&mut self.random, pattern);
        for bytes in variants(&whole).into_iter().chain(variants(&every)) {
            self.comparison.run_script(pattern, &bytes);
        }
        for dim in 0..4 {
            for change in [1, 255] {
                let mut stale = whole.clone();
                stale[1 + dim] = stale[1 + dim].wrapping_add(change);
                self.comparison.run_script(pattern, &stale);
            }
        }
    }

    fn script_limits(&mut self) {
        let roomy = Pattern::from_mesh(&parallel([95, 96, 95, 0], 96));
        for length in SCRIPT_LIMIT - 3..SCRIPT_LIMIT + 4 {
            self.comparison.run_script(&roomy, &of_length(length));
        }
        let junk = self.random.junk(2 * SCRIPT_LIMIT);
        for (pattern, length) in small().iter().zip(SCRIPT_LIMIT - 1..) {
            self.comparison.run_script(pattern, &junk[..length]);
            for count in [0, 1, 2, 255, 256, OPERATOR_LIMIT - 1, OPERATOR_LIMIT, OPERATOR_LIMIT + 1, 65_535] {
                let flips: Vec<_> = (0..count).map(|i| vec![0x51, i as u8 % pattern.counts[1]]).collect();
                let mut bytes = script(pattern.counts, &flips);
                bytes.truncate(SCRIPT_LIMIT);
                self.comparison.run_script(pattern, &bytes);
                bytes.pop();
                self.comparison.run_script(pattern, &bytes);
            }
        }
    }
}
