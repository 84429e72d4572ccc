//! A lent pattern with the calls on it, for the tests.
#![allow(dead_code)]

pub mod merging;

use second::NO_PLACE;

/// T of the document: three corners, three seams, one panel.
pub const T: [u8; 17] = [3, 3, 0, 2, 0, 1, 1, 2, 1, 3, 0, 2, 1, 1, 2, 1, 0];

/// The script of the document's listing.
pub const LISTING_SCRIPT: [u8; 14] = [4, 3, 3, 1, 0, 2, 0, 0x31, 0, 0x32, 0, 2, 2, 3];

/// A tetrahedron: four corners, six seams, four panels, one block.
pub const TETRAHEDRON: [u8; 53] = [
    4, 6, 0, 1, 0, 2, 0, 3, 1, 2, 1, 3, 2, 3, // seams 01 02 03 12 13 23
    4, 3, 0, 1, 1, 2, 3, 1, 3, 0, 1, 2, 2, 4, 1, // panels 012 013
    3, 1, 1, 2, 2, 5, 1, 3, 3, 1, 4, 2, 5, 1, // panels 023 123
    1, 4, 0, 2, 1, 1, 2, 2, 3, 1, // the block
];

#[derive(Clone, Debug, PartialEq, Eq)]
pub struct Lent {
    pub counts: [u8; 4],
    pub m1: Vec<i8>,
    pub m2: Vec<i8>,
    pub m3: Vec<i8>,
}

impl Lent {
    pub fn empty() -> Lent {
        let zero = || vec![0; 9_216];
        Lent { counts: [0; 4], m1: zero(), m2: zero(), m3: zero() }
    }

    /// Reads a mesh, which must be accepted.
    pub fn read(bytes: &[u8]) -> Lent {
        let mut lent = Lent::empty();
        assert_eq!(lent.read_mesh(bytes).0, 0);
        lent
    }

    pub fn read_mesh(&mut self, bytes: &[u8]) -> (u8, usize) {
        let (refusal, used, place) = self.read_mesh_at(bytes);
        assert_placed(refusal, place);
        (refusal, used)
    }

    pub fn read_mesh_at(&mut self, bytes: &[u8]) -> (u8, usize, u32) {
        let (refusal, counts, used, place) = second::read_mesh(bytes, &mut self.m1, &mut self.m2, &mut self.m3);
        self.counts = counts;
        (refusal, used, place)
    }

    pub fn apply(&mut self, bytes: &[u8]) -> u8 {
        let (refusal, place) = self.apply_at(bytes);
        assert_placed(refusal, place);
        refusal
    }

    pub fn apply_at(&mut self, bytes: &[u8]) -> (u8, u32) {
        let Lent { counts, m1, m2, m3 } = self;
        let (refusal, after, place) = second::apply_operator(*counts, m1, m2, m3, bytes);
        *counts = after;
        (refusal, place)
    }

    pub fn run(&mut self, bytes: &[u8]) -> (u8, u16) {
        let (refusal, ran, place) = self.run_at(bytes);
        assert_placed(refusal, place);
        (refusal, ran)
    }

    pub fn run_at(&mut self, bytes: &[u8]) -> (u8, u16, u32) {
        let Lent { counts, m1, m2, m3 } = self;
        let (refusal, after, ran, place) = second::run_script(*counts, m1, m2, m3, bytes);
        *counts = after;
        (refusal, ran, place)
    }

    /// The 96 entries of a cell of dimension 1 to 3.
    pub fn column(&self, dim: usize, cell: usize) -> &[i8] {
        let matrix = [&self.m1, &self.m2, &self.m3][dim - 1];
        &matrix[96 * cell..96 * cell + 96]
    }

    pub fn check(&self) -> u8 {
        second::check(self.counts, &self.m1, &self.m2, &self.m3)
    }

    pub fn euler(&self) -> (u8, i16) {
        second::euler(self.counts, &self.m1, &self.m2, &self.m3)
    }

    pub fn write(&self, out: &mut [u8]) -> (u8, usize) {
        second::write_mesh(self.counts, &self.m1, &self.m2, &self.m3, out)
    }

    /// The pattern's mesh.
    pub fn mesh(&self) -> Vec<u8> {
        let mut out = vec![0; 37_252];
        let (refusal, written) = self.write(&mut out);
        assert_eq!(refusal, 0);
        out.truncate(written);
        out
    }

    pub fn boundary(&self, d: u8, chain: &[i32], out: &mut [i32]) -> u8 {
        second::boundary(self.counts, &self.m1, &self.m2, &self.m3, d, chain, out)
    }

    pub fn carry(&self, bytes: &[u8], d: u8, chain: &[i32], out: &mut [i32]) -> u8 {
        let (refusal, place) = self.carry_at(bytes, d, chain, out);
        if d <= 3 {
            assert_placed(refusal, place);
        } else {
            assert_eq!(place, NO_PLACE, "a fault of the dimension is none of the form");
        }
        refusal
    }

    pub fn carry_at(&self, bytes: &[u8], d: u8, chain: &[i32], out: &mut [i32]) -> (u8, u32) {
        second::carry(self.counts, &self.m1, &self.m2, &self.m3, bytes, d, chain, out)
    }
}

/// A lent pattern and a lent list of coordinates.
#[derive(Clone, Debug, PartialEq, Eq)]
pub struct Placed {
    pub lent: Lent,
    pub coordinates: Vec<i32>,
}

impl Placed {
    pub fn empty() -> Placed {
        Placed { lent: Lent::empty(), coordinates: vec![0; 288] }
    }

    /// A pattern and a list with no byte that an accepted or refused import leaves.
    pub fn soiled() -> Placed {
        let mut placed = Placed { lent: Lent::empty(), coordinates: vec![7_777_777; 288] };
        placed.lent.counts = [77; 4];
        for matrix in [&mut placed.lent.m1, &mut placed.lent.m2, &mut placed.lent.m3] {
            matrix.fill(77);
        }
        placed
    }

    /// Imports a text, which must be accepted.
    pub fn imported(text: &str) -> Placed {
        let mut placed = Placed::soiled();
        assert_eq!(placed.import(text.as_bytes()), 0, "{text}");
        placed
    }

    pub fn import(&mut self, text: &[u8]) -> u8 {
        let Lent { counts, m1, m2, m3 } = &mut self.lent;
        let (refusal, after) = second::import_off(text, m1, m2, m3, &mut self.coordinates);
        *counts = after;
        refusal
    }

    pub fn export(&self, out: &mut [u8]) -> (u8, usize) {
        let Lent { counts, m1, m2, m3 } = &self.lent;
        second::export_off(*counts, m1, m2, m3, &self.coordinates, out)
    }

    /// The pattern's OFF text.
    pub fn text(&self) -> String {
        let mut out = vec![0; 40_000];
        let (refusal, written) = self.export(&mut out);
        assert_eq!(refusal, 0);
        out.truncate(written);
        String::from_utf8(out).unwrap()
    }
}

/// What an import answers; a refused one leaves zeros, and 18 has a kind of fault.
pub fn import_refusal(text: &[u8]) -> u8 {
    let mut placed = Placed::soiled();
    let refusal = placed.import(text);
    if refusal != 0 {
        assert_eq!(placed, Placed::empty());
    }
    assert_eq!(refusal == 18, second::off_fault(text).is_some());
    refusal
}

/// A fault of the form has a place, and nothing else has.
fn assert_placed(refusal: u8, place: u32) {
    assert_eq!(matches!(refusal, 3 | 4 | 14), place != NO_PLACE, "{refusal} at {place}");
}

/// A plain generator of numbers, so that every run is the same.
pub struct Dice(pub u64);

impl Dice {
    pub fn below(&mut self, limit: usize) -> usize {
        self.0 = self.0.wrapping_mul(6_364_136_223_846_793_005);
        self.0 = self.0.wrapping_add(1_442_695_040_888_963_407);
        ((self.0 >> 33) as usize) % limit.max(1)
    }
}
