//! An OFF text: the form of its words when it comes in, its lines when it goes out.

use crate::cells::LIMIT;

/// x, y and z of a corner.
pub type Point = [i32; 3];

const SEPARATORS: [u8; 4] = [b' ', b'\t', b'\r', b'\n'];
const MOST_DIGITS: usize = 7;
const COORDINATE_LIMIT: i32 = 1_048_576;

/// The kinds of faults that the form of a text can have. Of several, the first from the
/// front of the text counts.
#[derive(Clone, Copy, Debug, PartialEq, Eq)]
pub enum OffFault {
    /// The first word is not `OFF`, or there is no word.
    Keyword,
    /// The text ends where a number must follow.
    Ends,
    /// A byte that no number has, or a minus and no digit.
    NotANumber,
    /// An eighth digit; leading zeros count.
    Digits,
    /// A minus that begins a count, a length or a corner number.
    Minus,
    /// More than 96 corners.
    CornerCount,
    /// More than 96 panels.
    PanelCount,
    /// A coordinate beyond ±1,048,576.
    Coordinate,
    /// A word after the last panel.
    LeftOver,
}

type Form<T> = Result<T, OffFault>;

/// What a text in form says: a point for each corner, and a line for each panel, whose
/// numbers need not be corners.
pub struct OffText {
    pub points: Vec<Point>,
    pub lines: Vec<Vec<u32>>,
}

/// Reads a whole text.
pub fn read(text: &[u8]) -> Form<OffText> {
    let is_separator = |byte: &u8| SEPARATORS.contains(byte);
    // Between two separators of a run there is an empty piece, which is no word.
    let words: Vec<&[u8]> = text.split(is_separator).filter(|word| !word.is_empty()).collect();
    let mut words = Words(words.into_iter());
    if words.0.next() != Some(b"OFF") {
        return Err(OffFault::Keyword);
    }
    let corners = words.count(OffFault::CornerCount)?;
    let panels = words.count(OffFault::PanelCount)?;
    // The count of seams may be any number.
    words.number()?;
    let points = (0..corners).map(|_| words.point()).collect::<Form<_>>()?;
    let lines = (0..panels).map(|_| words.line()).collect::<Form<_>>()?;
    match words.0.next() {
        Some(_) => Err(OffFault::LeftOver),
        None => Ok(OffText { points, lines }),
    }
}

/// The words that are still to be read.
struct Words<'a>(std::vec::IntoIter<&'a [u8]>);

impl<'a> Words<'a> {
    fn word(&mut self) -> Form<&'a [u8]> {
        self.0.next().ok_or(OffFault::Ends)
    }

    /// A count, a length or a corner number.
    fn number(&mut self) -> Form<u32> {
        match self.word()? {
            [b'-', ..] => Err(OffFault::Minus),
            word => value(word),
        }
    }

    /// A count of cells, with the fault of one that is over the limit.
    fn count(&mut self, over: OffFault) -> Form<u32> {
        let count = self.number()?;
        if count > LIMIT as u32 {
            return Err(over);
        }
        Ok(count)
    }

    fn coordinate(&mut self) -> Form<i32> {
        // Seven digits fit, with a minus too.
        let coordinate = match self.word()? {
            [b'-', digits @ ..] => -(value(digits)? as i32),
            digits => value(digits)? as i32,
        };
        if !within(coordinate) {
            return Err(OffFault::Coordinate);
        }
        Ok(coordinate)
    }

    fn point(&mut self) -> Form<Point> {
        Ok([self.coordinate()?, self.coordinate()?, self.coordinate()?])
    }

    /// A length and that many numbers.
    fn line(&mut self) -> Form<Vec<u32>> {
        let length = self.number()?;
        let mut numbers = Vec::new();
        for _ in 0..length {
            numbers.push(self.number()?);
        }
        Ok(numbers)
    }
}

/// The value of a word that is one to seven digits.
fn value(word: &[u8]) -> Form<u32> {
    let digits = word.iter().take_while(|byte| byte.is_ascii_digit()).count();
    // An eighth digit stands before any byte that is none.
    if digits > MOST_DIGITS {
        return Err(OffFault::Digits);
    }
    if digits == 0 || digits < word.len() {
        return Err(OffFault::NotANumber);
    }
    Ok(word.iter().fold(0, |value, byte| 10 * value + u32::from(byte - b'0')))
}

/// Whether a coordinate is in range.
pub fn within(coordinate: i32) -> bool {
    (-COORDINATE_LIMIT..=COORDINATE_LIMIT).contains(&coordinate)
}

/// The text of corners at these points, with these rings as panels.
pub fn write(points: &[Point], rings: &[Vec<u8>], seams: usize) -> String {
    let mut text = format!("OFF\n{} {} {seams}\n", points.len(), rings.len());
    for [x, y, z] in points {
        text += &format!("{x} {y} {z}\n");
    }
    for ring in rings {
        text += &ring.len().to_string();
        for corner in ring {
            text += &format!(" {corner}");
        }
        text.push('\n');
    }
    text
}
