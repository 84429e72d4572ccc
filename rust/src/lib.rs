//! The engine for Rust: a pattern with the calls as methods, safe and with no heap. `calls` has the same on lent slices.
//! docs/FORMATS.md says what a good pattern is and the bytes of meshes, scripts, operators and OFF texts; include/mbyasoka.h, for each
//! call, the order of its refusals, the stack it takes and what the archive needs.
pub mod calls;
pub mod limits;
pub mod raw;
mod refusal;

pub use limits::{COORDINATES, SIDE, SIZE};
pub use refusal::Refusal;

/// Raised by one with each change that a caller can see, as in include/mbyasoka.h.
pub const VERSION: u32 = 4;

pub type Chain = [i32; SIDE];

/// x, y and z of each corner, one corner after another.
pub type Coordinates = [i32; COORDINATES];

/// What became of a script. **Where an operator was refused (5 to 11 or 20), the `ran` before it have changed the pattern and stay.**
#[derive(Clone, Copy, Debug, PartialEq, Eq)]
pub struct Run {
    pub ran: u16,
    pub refusal: Option<Refusal>,
}

/// Counts and boundary matrices, as `mbyasoka_pattern` for C: the default is the empty pattern, which is good. Whoever sets the fields need
/// not see to it that they are good: every call tests them. A later version may store more, so it is not made by naming its fields.
#[derive(Clone, Debug, PartialEq, Eq)]
#[non_exhaustive]
pub struct Pattern {
    pub counts: calls::Counts,
    pub matrices: [[i8; SIZE]; 3],
}

impl Default for Pattern {
    fn default() -> Self {
        Pattern { counts: [0; 4], matrices: [[0; SIZE]; 3] }
    }
}

fn accepted<T>(number: u8, place: u32, answer: T) -> Result<T, Refusal> {
    if number == 0 {
        Ok(answer)
    } else {
        Err(Refusal { number, place: (place != Refusal::NO_PLACE).then_some(place) })
    }
}

/// The answer of a call that tells no place.
fn unplaced<T>(number: u8, answer: T) -> Result<T, Refusal> {
    accepted(number, Refusal::NO_PLACE, answer)
}

impl Pattern {
    fn lent(&self) -> calls::Matrices<'_> {
        let [m1, m2, m3] = &self.matrices;
        [m1, m2, m3]
    }

    fn lent_mut(&mut self) -> calls::MatricesMut<'_> {
        let [m1, m2, m3] = &mut self.matrices;
        [m1, m2, m3]
    }

    /// Reads a mesh from the front of the bytes and answers how many it used; a refused one leaves the empty pattern.
    pub fn read(&mut self, bytes: &[u8]) -> Result<usize, Refusal> {
        let (refusal, counts, used, place) = calls::read_mesh(self.lent_mut(), bytes);
        self.counts = counts;
        accepted(refusal, place, used)
    }

    /// Writes the pattern as a mesh and answers how many bytes it wrote.
    pub fn write(&self, out: &mut [u8]) -> Result<usize, Refusal> {
        let (refusal, written) = calls::write_mesh(self.counts, self.lent(), out);
        unplaced(refusal, written)
    }

    /// Whether the pattern is good.
    pub fn check(&self) -> Result<(), Refusal> {
        unplaced(calls::check(self.counts, self.lent()), ())
    }

    /// Corners - seams + panels - blocks.
    pub fn euler(&self) -> Result<i16, Refusal> {
        let (refusal, number) = calls::euler(self.counts, self.lent());
        unplaced(refusal, number)
    }

    /// One operator; a refused one changes nothing.
    pub fn apply(&mut self, operator: &[u8]) -> Result<(), Refusal> {
        let (refusal, counts, place) = calls::apply_operator(self.counts, self.lent_mut(), operator);
        self.counts = counts;
        accepted(refusal, place, ())
    }

    /// A script, up to its first refusal. **A script refused at an operator has changed the pattern**: who wants all or nothing keeps a clone.
    pub fn run(&mut self, script: &[u8]) -> Run {
        let (refusal, counts, ran, place) = calls::run_script(self.counts, self.lent_mut(), script);
        self.counts = counts;
        Run { ran, refusal: accepted(refusal, place, ()).err() }
    }

    /// The boundary of a chain of cells of a dimension; a refused call leaves `out`.
    pub fn boundary(&self, dimension: u8, chain: &Chain, out: &mut Chain) -> Result<(), Refusal> {
        unplaced(calls::boundary(self.counts, self.lent(), dimension, chain, out), ())
    }

    /// The chain carried through one operator, which is not performed; a refused call leaves `out`.
    pub fn carry(&self, operator: &[u8], dimension: u8, chain: &Chain, out: &mut Chain) -> Result<(), Refusal> {
        let (refusal, place) = calls::carry(self.counts, self.lent(), operator, dimension, chain, out);
        accepted(refusal, place, ())
    }

    /// Imports an OFF text, with its corners' coordinates; a refused one leaves the empty pattern and all coordinates 0.
    pub fn import_off(&mut self, text: &[u8], coordinates: &mut Coordinates) -> Result<(), Refusal> {
        let (refusal, counts) = calls::import_off(self.lent_mut(), coordinates, text);
        self.counts = counts;
        unplaced(refusal, ())
    }

    /// Exports the pattern, with its corners at these coordinates, as an OFF text and answers how many bytes it wrote.
    pub fn export_off(&self, coordinates: &Coordinates, out: &mut [u8]) -> Result<usize, Refusal> {
        let (refusal, written) = calls::export_off(self.counts, self.lent(), coordinates, out);
        unplaced(refusal, written)
    }
}
