//! The script, and one operator alone.

use crate::cells::Pattern;
use crate::fault::Field;
use crate::form::{Fields, Form, Operator};
use crate::operators;
use crate::refusal::{demand, Answer, Judged, Refusal};

const SCRIPT_LIMIT: usize = 24_576;
const OPERATOR_LIMIT: u16 = 1_024;

pub struct Script {
    base: [u8; 4],
    operators: Vec<Operator>,
}

pub fn length_right(bytes: &[u8]) -> Answer<()> {
    demand(bytes.len() <= SCRIPT_LIMIT, Refusal::Length)
}

/// The one operator that the bytes are.
pub fn single(bytes: &[u8]) -> Form<Operator> {
    let mut fields = Fields::from(bytes, 0);
    let operator = fields.operator()?;
    fields.finish()?;
    Ok(operator)
}

pub fn decode(bytes: &[u8]) -> Form<Script> {
    let mut fields = Fields::from(bytes, 0);
    fields.field(Field::BaseCount, |[count]| (count == 4).then_some(()))?;
    let mut base = [0; 4];
    for count in &mut base {
        *count = fields.count(Field::BaseCellCount)?;
    }
    // Low byte first.
    let within = |bytes| Some(u16::from_le_bytes(bytes)).filter(|&count| count <= OPERATOR_LIMIT);
    let count = fields.field(Field::OperatorCount, within)?;
    let mut operators = Vec::new();
    for _ in 0..count {
        operators.push(fields.operator()?);
    }
    fields.finish()?;
    Ok(Script { base, operators })
}

/// Runs a script up to its first refused operator; answers how many ran, too.
pub fn run(pattern: &mut Pattern, bytes: &[u8]) -> (Judged<()>, u16) {
    let script = match decode(bytes) {
        Ok(script) => script,
        Err(fault) => return (Err(fault.into()), 0),
    };
    if script.base != pattern.counts() {
        return (Err(Refusal::Stale.into()), 0);
    }
    let mut ran = 0;
    for operator in script.operators {
        if let Err(refused) = operators::run(pattern, operator, bytes) {
            return (Err(refused), ran);
        }
        ran += 1;
    }
    (Ok(()), ran)
}
