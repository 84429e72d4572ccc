//! At which fields the calls found the form of the bytes at fault.

use crate::coverage::{call_name, Call};
use crate::tables::{row, Row};
use second::{Fault, Field, NO_PLACE};

/// The calls that answer a place.
pub const CALLS: [Call; 4] = [Call::ReadMesh, Call::ApplyOperator, Call::RunScript, Call::Carry];

const FIELDS: [(Field, &str); 10] = [
    (Field::BaseCount, "base count"),
    (Field::BaseCellCount, "base cell count"),
    (Field::OperatorCount, "operator count"),
    (Field::Code, "code"),
    (Field::CellNumber, "cell number"),
    (Field::FaceCount, "face count"),
    (Field::ListNumber, "list number"),
    (Field::Sign, "sign"),
    (Field::MeshCount, "mesh count"),
    (Field::LeftOver, "left over"),
];

/// The numbers that a call may answer for a field. All of them must be reached.
fn allowed(call: Call, field: Field) -> &'static [usize] {
    let of_call = match field {
        Field::MeshCount => matches!(call, Call::ReadMesh),
        Field::BaseCount | Field::BaseCellCount | Field::OperatorCount => matches!(call, Call::RunScript),
        Field::Code | Field::LeftOver => !matches!(call, Call::ReadMesh),
        _ => true,
    };
    match field {
        _ if !of_call => &[],
        Field::LeftOver => &[14],
        // every byte is one
        Field::CellNumber => &[3],
        _ => &[3, 4],
    }
}

/// How many kinds of faults the bytes of a call can have.
#[cfg(test)]
pub fn kinds(call: Call) -> usize {
    FIELDS.iter().map(|&(field, _)| allowed(call, field).len()).sum()
}

/// By call, field and number.
#[derive(Default)]
pub struct Places([[[u64; 15]; FIELDS.len()]; 8]);

impl Places {
    /// Whether a place is as it must be: that of the fault where the answer is about the form, and none elsewhere.
    pub fn answer(&mut self, call: Call, number: u8, place: u32, form: Option<Option<Fault>>) -> bool {
        match form {
            None => place == NO_PLACE,
            Some(None) => false,
            Some(Some(fault)) => {
                self.0[call as usize][fault.field as usize][usize::from(fault.number)] += 1;
                (fault.number, fault.place) == (number, place)
            }
        }
    }

    pub fn counts(&mut self) -> impl Iterator<Item = &mut u64> {
        self.0.iter_mut().flatten().flatten()
    }

    pub fn rows(&self) -> Vec<Row<'_>> {
        let of_call = |call: Call| {
            FIELDS.iter().map(move |&(field, name)| {
                let name = format!("{}: {name}", call_name(call));
                row(&name, allowed(call, field), &self.0[call as usize][field as usize])
            })
        };
        CALLS.into_iter().flat_map(of_call).filter(|row| !row.is_empty()).collect()
    }
}

#[cfg(test)]
mod tests {
    use super::*;

    #[test]
    fn every_field_has_its_own_row() {
        for (place, (field, _)) in FIELDS.iter().enumerate() {
            assert_eq!(place, *field as usize);
        }
        assert_eq!(CALLS.map(kinds), [9, 10, 16, 10]);
    }

    #[test]
    fn a_place_is_that_of_the_fault_or_none() {
        let fault = Some(Fault { number: 4, place: 5, field: Field::Sign });
        for (number, place, form, right) in [
            (4, 5, Some(fault), true),
            (4, 6, Some(fault), false),
            (3, 5, Some(fault), false),
            (4, NO_PLACE, Some(fault), false),
            (4, 5, Some(None), false),
            (4, NO_PLACE, Some(None), false),
            (13, NO_PLACE, None, true),
            (13, 5, None, false),
        ] {
            assert_eq!(Places::default().answer(Call::ReadMesh, number, place, form), right, "{number} {place} {form:?}");
        }
    }
}
