//! Calls at random on patterns that grow and shrink.

use crate::calls::{Chain, Comparison};
use crate::chains::{self, BOUNDARY_LIMIT, CARRY_LIMIT, DIMENSIONS};
use crate::damaged::{self, lent};
use crate::meshes;
use crate::operators::{fitting, mistaken, sharing, towards, CODES};
use crate::patterns::Pattern;
use crate::random::Random;
use crate::scripts;

/// Numbers of cells, of all dimensions together, that patterns are led towards.
const SIZES: [usize; 10] = [3, 8, 12, 20, 30, 50, 80, 140, 250, 380];

pub struct Rounds<'a> {
    pub comparison: &'a mut Comparison,
    pub random: Random,
    pool: Vec<Pattern>,
}

impl<'a> Rounds<'a> {
    pub fn new(comparison: &'a mut Comparison, random: Random) -> Self {
        let pool = meshes::all().iter().map(|mesh| Pattern::from_mesh(mesh)).collect();
        Rounds { comparison, random, pool }
    }

    /// Rounds until there have been as many calls.
    pub fn run(&mut self, calls: u64) {
        let fresh = meshes::all();
        while self.comparison.calls < calls {
            let at = self.random.below(self.pool.len());
            if self.random.one_in(600) {
                self.pool[at] = Pattern::from_mesh(&fresh[at]);
            }
            // On the dense patterns a call takes a hundred times as long as on the others.
            if fresh[at].len() < 4_000 || self.random.one_in(8) {
                self.round(at);
            }
        }
    }

    fn round(&mut self, at: usize) {
        let size = SIZES[at % SIZES.len()];
        let sound = self.pool[at].clone();
        let pattern = lent(&mut self.random, &sound);
        match self.random.below(114) {
            0..=19 => self.grow(at, size),
            20..=39 => self.operator(&pattern, &sound),
            40..=51 => self.read(&pattern, &sound),
            52..=58 => self.write(&pattern),
            59..=63 => {
                self.comparison.check(&pattern);
            }
            64..=66 => self.comparison.euler(&pattern),
            67..=78 => self.script(&pattern, &sound, size),
            79..=87 => self.boundary(&pattern),
            88..=99 => self.carry(&pattern, &sound),
            100..=104 => self.import(&pattern),
            105..=109 => self.export(&pattern),
            _ => self.merge(&sound),
        }
    }

    fn grow(&mut self, at: usize, size: usize) {
        let operator = towards(&mut self.random, &self.pool[at], size);
        self.pool[at] = self.comparison.apply_operator(&self.pool[at], &operator);
    }

    /// An operator that was thought out for the sound pattern.
    fn some_operator(&mut self, sound: &Pattern) -> Vec<u8> {
        let code = self.random.pick(&CODES);
        let operator = match self.random.below(2) {
            0 => fitting(&mut self.random, sound, code),
            _ => mistaken(&mut self.random, sound, code),
        };
        match self.random.below(6) {
            0 => damaged::bytes(&mut self.random, &operator),
            _ => operator,
        }
    }

    fn operator(&mut self, pattern: &Pattern, sound: &Pattern) {
        let bytes = self.some_operator(sound);
        self.comparison.apply_operator(pattern, &bytes);
    }

    /// A merge of two cells that were just made to share more than one face, in one script and one by one.
    fn merge(&mut self, sound: &Pattern) {
        let dim = self.random.below(3);
        let operators = sharing(&mut self.random, sound, dim);
        self.comparison.run_script(sound, &scripts::script(sound.counts, &operators));
        let changed = self.comparison.apply_operator(sound, &operators[0]);
        self.comparison.apply_operator(&changed, &operators[1]);
    }

    /// The pattern's mesh, whole or damaged, over what the lent matrices hold.
    fn read(&mut self, over: &Pattern, sound: &Pattern) {
        let mut mesh = sound.mesh().unwrap_or_default();
        if !self.random.one_in(3) {
            mesh = damaged::bytes(&mut self.random, &mesh);
        }
        self.comparison.read_mesh(&mesh, over);
    }

    fn write(&mut self, pattern: &Pattern) {
        let needed = pattern.mesh().map_or(40, |mesh| mesh.len());
        let room = (needed + self.random.below(40)).saturating_sub(self.random.below(30));
        let out = self.random.junk(room);
        self.comparison.write_mesh(pattern, &out);
    }

    fn script(&mut self, pattern: &Pattern, sound: &Pattern, size: usize) {
        let long = self.random.one_in(100) && sound.size() < 200;
        let operators = if long { scripts::OPERATOR_LIMIT } else { self.random.below(12) };
        let mut bytes = scripts::fitting(&mut self.random, sound, operators, size);
        if self.random.one_in(3) {
            bytes = damaged::bytes(&mut self.random, &bytes);
        }
        self.comparison.run_script(pattern, &bytes);
    }

    fn dimension(&mut self) -> u8 {
        if self.random.one_in(12) {
            self.random.pick(&DIMENSIONS)
        } else {
            self.random.below(4) as u8
        }
    }

    fn chain(&mut self, pattern: &Pattern, limit: i32) -> (u8, Vec<i32>, Vec<i32>) {
        let dimension = self.dimension();
        let count = pattern.counts.get(usize::from(dimension)).copied().unwrap_or(50);
        let chain = chains::lent(&mut self.random, count.into(), limit);
        (dimension, chain, chains::out(&mut self.random))
    }

    fn boundary(&mut self, pattern: &Pattern) {
        let (dimension, chain, out) = self.chain(pattern, BOUNDARY_LIMIT);
        let (coefficients, out) = (&chain, &out);
        let chain = Chain { dimension, coefficients, out };
        self.comparison.boundary(pattern, &chain);
    }

    fn carry(&mut self, pattern: &Pattern, sound: &Pattern) {
        let bytes = self.some_operator(sound);
        let (dimension, chain, out) = self.chain(pattern, CARRY_LIMIT);
        let (coefficients, out) = (&chain, &out);
        let chain = Chain { dimension, coefficients, out };
        self.comparison.carry(pattern, &bytes, &chain);
    }
}
