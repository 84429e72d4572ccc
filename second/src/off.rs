//! Panels as rings of corners: what an OFF text means, and which patterns have one.

use std::collections::{BTreeMap, BTreeSet};

use crate::cells::{Cell, Face, Pattern};
use crate::mesh::seam_between;
use crate::off_text::{read, within, write, Point};
use crate::refusal::{demand, Answer, Refusal};

/// The pattern of a text and its corners' points; its whole form is judged before any panel.
pub fn import(text: &[u8]) -> Answer<(Pattern, Vec<Point>)> {
    let text = read(text).map_err(|_| Refusal::OffForm)?;
    let mut sewing = Sewing::default();
    for _ in &text.points {
        sewing.pattern.append(0, Cell::default());
    }
    for line in &text.lines {
        let ring = ring_of_line(&sewing.pattern, line)?;
        sewing.sew(&ring)?;
    }
    Ok((sewing.pattern, text.points))
}

fn ring_of_line(pattern: &Pattern, line: &[u32]) -> Answer<Vec<u8>> {
    let corner = |&number: &u32| u8::try_from(number).ok().filter(|&number| pattern.has(0, number));
    let ring: Vec<u8> = line.iter().map(corner).collect::<Option<_>>().ok_or(Refusal::NotBelowCount)?;
    let different: BTreeSet<u8> = ring.iter().copied().collect();
    demand(ring.len() >= 3 && different.len() == ring.len(), Refusal::NotClosed)?;
    Ok(ring)
}

/// A pattern that grows panel by panel. For each step from corner to corner that a panel has
/// made, and for the step back, `steps` has the seam with the sign of that way along it.
#[derive(Default)]
struct Sewing {
    pattern: Pattern,
    steps: BTreeMap<(u8, u8), Face>,
}

impl Sewing {
    /// Appends the panel around a ring; the form has seen to it that there are at most 96.
    fn sew(&mut self, ring: &[u8]) -> Answer<()> {
        let mut faces = Vec::new();
        for (&from, &to) in ring.iter().zip(ring.iter().cycle().skip(1)) {
            faces.push(self.step(from, to)?);
        }
        faces.sort_unstable();
        self.pattern.append(2, Cell { faces });
        Ok(())
    }

    fn step(&mut self, from: u8, to: u8) -> Answer<Face> {
        if let Some(&face) = self.steps.get(&(from, to)) {
            return Ok(face);
        }
        demand(!self.pattern.is_full(1), Refusal::Full)?;
        let number = self.pattern.count(1) as u8;
        self.pattern.append(1, seam_between(from, to));
        self.steps.insert((to, from), (number, -1));
        self.steps.insert((from, to), (number, 1));
        Ok((number, 1))
    }
}

/// Why a good pattern has no OFF text. Of several reasons, the first here counts.
#[derive(Clone, Copy, Debug, PartialEq, Eq)]
pub enum OffObstacle {
    /// There is a block.
    Block,
    /// A seam is in no panel.
    LooseSeam,
    /// Two seams have the same two ends, in whichever direction.
    SameEnds,
    /// A panel is not one closed walk that leaves each of its corners once.
    NotOneRing,
}

/// The text of a good pattern with its corners at these points.
pub fn export(pattern: &Pattern, points: &[Point]) -> Answer<String> {
    let in_range = points.iter().flatten().all(|&coordinate| within(coordinate));
    demand(in_range, Refusal::OffForm)?;
    let rings = rings_of(pattern).map_err(|_| Refusal::OffObstacle)?;
    Ok(write(points, &rings, pattern.count(1)))
}

/// The rings of a good pattern's panels, or what stands against an OFF text of it.
pub fn rings_of(pattern: &Pattern) -> Result<Vec<Vec<u8>>, OffObstacle> {
    if pattern.count(3) > 0 {
        return Err(OffObstacle::Block);
    }
    let sewn: BTreeSet<u8> = pattern.cells(2).iter().flat_map(|panel| &panel.faces).map(|&(seam, _)| seam).collect();
    if sewn.len() < pattern.count(1) {
        return Err(OffObstacle::LooseSeam);
    }
    // Faces rise, so without their signs they are the two ends, whatever the direction.
    let ends = |seam: &Cell| seam.faces.iter().map(|&(corner, _)| corner).collect();
    let different: BTreeSet<Vec<u8>> = pattern.cells(1).iter().map(ends).collect();
    if different.len() < pattern.count(1) {
        return Err(OffObstacle::SameEnds);
    }
    let rings = pattern.cells(2).iter().map(|panel| ring_around(pattern, panel));
    rings.collect::<Option<_>>().ok_or(OffObstacle::NotOneRing)
}

/// The corners around a panel its way round from the lowest, if it is one ring.
fn ring_around(pattern: &Pattern, panel: &Cell) -> Option<Vec<u8>> {
    let mut steps = BTreeMap::new();
    for &(number, sign) in &panel.faces {
        let seam = pattern.cell(1, number)?;
        steps.insert(seam.end(-sign)?, seam.end(sign)?);
    }
    let mut corner = *steps.keys().next()?;
    let mut ring = Vec::new();
    // A step is gone once it is walked. The panel closes, so this comes back to the start.
    while let Some(next) = steps.remove(&corner) {
        ring.push(corner);
        corner = next;
    }
    // A corner that is left twice has kept one step only; a second ring is not walked.
    (ring.len() == panel.faces.len()).then_some(ring)
}
