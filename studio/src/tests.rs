//! Two triangles on either side of a seam, and what scripts make of them.
use super::*;

const TWO: &str = "OFF\n4 2 5\n0 0 0\n9 0 0\n9 9 0\n0 9 0\n3 0 1 2\n3 0 2 3\n";
/// For the pattern of that text: its counts, and how many operators.
const HEAD: [u8; 6] = [4, 4, 5, 2, 0, 0];

fn script(number: u8, operators: &[u8]) -> Vec<u8> {
    let mut script = [&HEAD[..], &[0], operators].concat();
    script[5] = number;
    script
}

fn out(script: &[u8], points: &str) -> Result<String, String> {
    exported(TWO.as_bytes(), Some(script), points).map(|text| String::from_utf8_lossy(&text).into_owned())
}

#[test]
fn without_a_script() {
    assert_eq!(exported(TWO.as_bytes(), None, ""), Ok(TWO.as_bytes().to_vec()));
    assert_eq!(exported(TWO.as_bytes(), None, "1 2 3"), Err("points: there is no script that adds corners".to_string()));
    let words = "text: the text does not have the form of a plain OFF text, or a coordinate is out of range (refusal 18)";
    assert_eq!(exported(b"OFF 1", None, ""), Err(words.to_string()));
}

#[test]
fn corners_that_are_added_get_their_points_in_order() {
    // split seam 2, between the two; a corner by itself; split seam 0
    let text = out(&script(3, &[0x31, 2, 0x10, 0x31, 0]), "4 4 1\n-5 -5 -5\n4 0 0\n");
    let lines = "4 4 1\n-5 -5 -5\n4 0 0\n5 0 6 1 2 4\n4 0 4 2 3\n";
    assert_eq!(text, Ok(TWO.replace("4 2 5", "7 2 7").replace("3 0 1 2\n3 0 2 3\n", lines)));
}

#[test]
fn corners_that_go_take_their_points_with_them() {
    // panel 1 and its two other seams go, then corner 3; a corner and a split seam come; merged at the latter, and the former goes
    let operators = [0x22, 1, 0x21, 4, 0x21, 3, 0x20, 3, 0x10, 0x31, 0, 0x40, 4, 0x31, 1, 0x20, 3];
    let text = out(&script(9, &operators), "7 7 7\n8 8 8\n9 4 0\n");
    assert_eq!(text, Ok("OFF\n4 1 4\n0 0 0\n9 0 0\n9 9 0\n9 4 0\n4 0 1 3 2\n".to_string()));
}

#[test]
fn a_refused_script_is_told_and_nothing_goes_out() {
    for (script, words) in [
        (script(1, &[0x36, 0]), "script: an impossible value was given at byte 7 (refusal 4)"),
        (script(0, &[0]), "script: there are bytes left over at byte 7 (refusal 14)"),
        (script(1, &[0x20, 0]), "script, operator 1: a cell that is to be killed is a face of another (refusal 8)"),
        (script(2, &[0x51, 0, 0x31, 5]), "script, operator 2: a cell is named that is not there (refusal 5)"),
        // the two triangles share both halves of seam 2
        (
            script(2, &[0x31, 2, 0x41, 2]),
            "script, operator 2: the two cells of a merge share another face, which would be left loose (refusal 20)",
        ),
    ] {
        assert_eq!(out(&script, ""), Err(words.to_string()));
    }
    // accepted, but a seam is left in no panel
    let words =
        "pattern: no OFF text has a block, a loose seam, two seams with the same ends, or a panel that is not one ring (refusal 19)";
    assert_eq!(out(&script(1, &[0x22, 0]), ""), Err(words.to_string()));
}

#[test]
fn too_few_and_too_many_points_are_told() {
    let split = script(1, &[0x31, 2]);
    assert_eq!(out(&split, ""), Err("points: 1 are needed for the corners that the script adds, 0 given".to_string()));
    assert_eq!(out(&split, "0 0 0\n0 0 0"), Err("points: 1 are needed for the corners that the script adds, 2 given".to_string()));
    let beyond = "points: line 1: 1048577 is no whole number within ±1048576";
    assert_eq!(out(&split, "0 1048577 0"), Err(beyond.to_string()));
    assert!(out(&split, "4 4 0").is_ok());
}
