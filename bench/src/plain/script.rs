//! Scripts, the single operator, the Euler number.
use super::form;
use super::operators::apply;
use super::pattern::{check, Pattern};
use super::{answer, Placed, Refused, NO_PLACE};

fn run(p: &mut Pattern, s: &[u8], again: bool, ran: &mut u16) -> Result<(), Placed> {
    let n = form::script(s)?;
    if s[1..5] != p.n {
        return Err(Refused(13).into());
    }
    let mut at = 7;
    for _ in 0..n {
        if again && check(p) != 0 {
            return Err(Refused(2).into());
        }
        let (o, next) = form::operator(s, at)?;
        apply(p, o, s)?;
        at = next;
        *ran += 1;
    }
    Ok(())
}

/// Operators run, refusal and place. `again` tests the pattern at every operator.
pub fn run_script(p: &mut Pattern, s: &[u8], again: bool) -> (u16, u8, u32) {
    if 24576 < s.len() {
        return (0, 1, NO_PLACE);
    }
    let refusal = check(p);
    if refusal != 0 {
        return (0, refusal, NO_PLACE);
    }
    let mut ran = 0;
    let (refusal, place) = answer(run(p, s, again, &mut ran));
    (ran, refusal, place)
}

/// Refusal and place.
pub fn apply_operator(p: &mut Pattern, s: &[u8]) -> (u8, u32) {
    let refusal = check(p);
    if refusal != 0 {
        return (refusal, NO_PLACE);
    }
    answer(form::lone_operator(s).and_then(|o| Ok(apply(p, o, s)?)))
}

pub fn euler(p: &Pattern) -> (i16, u8) {
    let refusal = check(p);
    if refusal != 0 {
        return (0, refusal);
    }
    let n = p.n.map(i16::from);
    (n[0] - n[1] + n[2] - n[3], 0)
}
