//! The wrapper has the numbers of include/mbyasoka.h, by their names there, and its sentences.
use mbyasoka::{limits, Refusal, VERSION};

const HEADER: &str = include_str!("../../include/mbyasoka.h");

macro_rules! limits {
    ($($name:ident)*) => { [$((stringify!($name), limits::$name as i64)),*] };
}

macro_rules! refusals {
    ($($name:ident)*) => { [$((stringify!($name), Refusal::$name.into())),*] };
}

/// Name and number, where a line of the header gives one.
fn given(line: &str) -> Option<(&str, i64)> {
    let rest = line.trim().trim_start_matches("#define ").strip_prefix("MBYASOKA_")?;
    let (name, value) = rest.split_once(" = ").or_else(|| rest.split_once(' '))?;
    let number = value.trim_start_matches("((uint32_t)").split(|c: char| !c.is_ascii_digit()).next()?;
    Some((name, number.parse().ok()?))
}

#[test]
fn numbers_are_those_of_the_header() {
    let limits = limits![
        SIDE SIZE MESH_BYTES SCRIPT_BYTES OPERATORS OPERATOR_BYTES BOUNDARY_LIMIT CARRY_LIMIT COORDINATES COORDINATE_LIMIT OFF_BYTES
    ];
    let refusals: [(&str, i64); 21] = refusals![
        WRONG_LENGTH NOT_GOOD BYTES_END WRONG_FORM NO_SUCH_CELL NO_ROOM NOT_CLOSED IN_USE WRONG_PART WRONG_DIVIDER NOT_BETWEEN WRONG_SUM
        STALE BYTES_LEFT SHORT_OUTPUT WRONG_CHAIN NOT_CARRIED WRONG_OFF NOT_PLAIN SHARED_FACE NO_PLACE
    ];
    let ours: Vec<_> = [("VERSION", VERSION.into())].into_iter().chain(limits).chain([("ACCEPTED", 0)]).chain(refusals).collect();
    assert_eq!(HEADER.lines().filter_map(given).collect::<Vec<_>>(), ours);
}

/// Label and sentence, where a line of the header returns one.
fn returned(line: &str) -> Option<(&str, &str)> {
    line.trim().strip_suffix("\";")?.split_once(": return \"")
}

#[test]
fn sentences_are_those_of_the_header() {
    let mut theirs: Vec<Option<&str>> = vec![None; 256];
    let mut otherwise = None;
    for (label, text) in HEADER.lines().filter_map(returned) {
        match label.strip_prefix("case MBYASOKA_") {
            Some(name) => {
                let number = HEADER.lines().filter_map(given).find(|own| own.0 == name).map(|own| own.1 as usize);
                theirs[number.expect(name)] = Some(text);
            }
            None => otherwise = Some(text),
        }
    }
    assert_eq!(theirs.iter().flatten().count(), 21);
    for (number, text) in (0..=255).zip(theirs) {
        assert_eq!(Some(Refusal { number, place: None }.text()), text.or(otherwise), "{number}");
    }
}
