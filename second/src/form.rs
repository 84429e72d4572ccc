//! The form of bytes: fields, lists and operators, whatever they may mean.

use crate::cells::{Face, LIMIT};
use crate::fault::{Fault, Field};
use crate::refusal::Refusal;

pub type Form<T> = Result<T, Fault>;

/// A decoded operator. `list` is where its list (or a new seam's tail) begins
/// in the bytes it was decoded from.
#[derive(Clone, Copy, Debug, PartialEq, Eq)]
pub enum Operator {
    Make { dim: usize, list: usize },
    Kill { dim: usize, cell: u8 },
    Split { dim: usize, cell: u8, list: usize },
    Merge { dim: usize, cell: u8 },
    Flip { dim: usize, cell: u8 },
}

enum Kind {
    Make,
    Kill,
    Split,
    Merge,
    Flip,
}

fn kind_of(code: u8) -> Option<Kind> {
    match code {
        0x10..=0x13 => Some(Kind::Make),
        0x20..=0x23 => Some(Kind::Kill),
        0x31..=0x33 => Some(Kind::Split),
        0x40..=0x42 => Some(Kind::Merge),
        0x51..=0x53 => Some(Kind::Flip),
        _ => None,
    }
}

fn fault(refusal: Refusal, place: usize, field: Field) -> Fault {
    // The longest form, a script's, has under 200,000 bytes, so nothing is cut off.
    Fault { number: refusal as u8, place: place as u32, field }
}

/// Reads fields one after another; each is judged when all its bytes are there.
pub struct Fields<'a> {
    bytes: &'a [u8],
    at: usize,
}

impl<'a> Fields<'a> {
    pub fn from(bytes: &'a [u8], at: usize) -> Self {
        Fields { bytes, at }
    }

    /// How many bytes are behind the next field.
    pub fn used(&self) -> usize {
        self.at
    }

    /// The next field, of `N` bytes; `judge` gives its value, or none if it is faulty.
    pub fn field<const N: usize, T>(&mut self, field: Field, judge: impl Fn([u8; N]) -> Option<T>) -> Form<T> {
        let bytes = self.bytes.get(self.at..self.at + N).and_then(|own| own.try_into().ok());
        let bytes = bytes.ok_or_else(|| fault(Refusal::BytesEnd, self.bytes.len(), field))?;
        let value = judge(bytes).ok_or_else(|| fault(Refusal::Form, self.at, field))?;
        self.at += N;
        Ok(value)
    }

    /// A cell or face count.
    pub fn count(&mut self, field: Field) -> Form<u8> {
        self.field(field, |[count]| (usize::from(count) <= LIMIT).then_some(count))
    }

    fn number(&mut self) -> Form<u8> {
        self.field(Field::CellNumber, |[number]| Some(number))
    }

    fn sign(&mut self) -> Form<i8> {
        self.field(Field::Sign, |[byte]| match byte {
            1 => Some(1),
            2 => Some(-1),
            _ => None,
        })
    }

    fn rising(&mut self, last: Option<u8>) -> Form<u8> {
        let rises = |number| last.map_or(true, |last| number > last);
        self.field(Field::ListNumber, |[number]| rises(number).then_some(number))
    }

    /// A face count and that many pairs of number and sign.
    pub fn signed_faces(&mut self) -> Form<Vec<Face>> {
        let count = self.count(Field::FaceCount)?;
        let mut faces: Vec<Face> = Vec::new();
        for _ in 0..count {
            let number = self.rising(faces.last().map(|face| face.0))?;
            faces.push((number, self.sign()?));
        }
        Ok(faces)
    }

    /// A face count and that many numbers.
    pub fn faces(&mut self) -> Form<Vec<u8>> {
        let count = self.count(Field::FaceCount)?;
        let mut faces: Vec<u8> = Vec::new();
        for _ in 0..count {
            faces.push(self.rising(faces.last().copied())?);
        }
        Ok(faces)
    }

    /// Tail and head of a seam.
    pub fn ends(&mut self) -> Form<(u8, u8)> {
        Ok((self.number()?, self.number()?))
    }

    pub fn operator(&mut self) -> Form<Operator> {
        let (kind, dim) = self.field(Field::Code, |[code]| Some((kind_of(code)?, usize::from(code & 15))))?;
        match kind {
            Kind::Make => self.make(dim),
            Kind::Kill => self.number().map(|cell| Operator::Kill { dim, cell }),
            Kind::Split => self.split(dim),
            Kind::Merge => self.number().map(|cell| Operator::Merge { dim, cell }),
            Kind::Flip => self.number().map(|cell| Operator::Flip { dim, cell }),
        }
    }

    fn make(&mut self, dim: usize) -> Form<Operator> {
        let list = self.at;
        match dim {
            0 => {}
            1 => {
                self.ends()?;
            }
            _ => {
                self.signed_faces()?;
            }
        }
        Ok(Operator::Make { dim, list })
    }

    fn split(&mut self, dim: usize) -> Form<Operator> {
        let cell = self.number()?;
        let list = self.at;
        if dim > 1 {
            self.faces()?;
        }
        Ok(Operator::Split { dim, cell, list })
    }

    /// Refuses bytes after what has been read.
    pub fn finish(&self) -> Form<()> {
        if self.at == self.bytes.len() {
            Ok(())
        } else {
            Err(fault(Refusal::BytesFollow, self.at, Field::LeftOver))
        }
    }
}
