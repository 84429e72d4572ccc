//! The wrapper hands both OFF calls through as they are: a triangle, and patterns that have no OFF text.
use mbyasoka::{calls, Coordinates, Pattern, Refusal, COORDINATES, SIZE};

/// The way round of a triangle, its text going out.
const TRIANGLE: &str = "OFF\n3 1 3\n0 0 0\n1048576 0 -20\n-1048576 7 3\n3 0 1 2\n";
/// The same from another program: other separators, zeros in front, no count of seams, another start of the ring.
const FOREIGN: &str = " OFF\t3 1\r\n0000000\r\n0 -0 00 1048576 0 -20\n\n-1048576 7 0003 3 2\t0 1";
/// Two triangles on either side of seam 2.
const TWO: &str = "OFF\n4 2 5\n0 0 0\n9 0 0\n9 9 0\n0 9 0\n3 0 1 2\n3 0 2 3\n";

fn refused<T>(number: u8) -> Result<T, Refusal> {
    Err(Refusal { number, place: None })
}

/// The pattern of a text that is accepted, and its coordinates.
fn imported(text: &str) -> (Box<Pattern>, Coordinates) {
    let (mut pattern, mut coordinates) = (Box::<Pattern>::default(), [7; COORDINATES]);
    assert_eq!(pattern.import_off(text.as_bytes(), &mut coordinates), Ok(()), "{text}");
    (pattern, coordinates)
}

fn exported((pattern, coordinates): &(Box<Pattern>, Coordinates)) -> String {
    let mut out = [9; 200];
    let written = pattern.export_off(coordinates, &mut out).expect("a text");
    assert!(out[written..].iter().all(|&byte| byte == 9));
    String::from_utf8_lossy(&out[..written]).into_owned()
}

#[test]
fn imports_and_exports() {
    let triangle = imported(TRIANGLE);
    assert_eq!((triangle.0.counts, triangle.0.check()), ([3, 3, 1, 0], Ok(())));
    assert_eq!(triangle.0.matrices[0][..3], [-1, 1, 0]);
    assert_eq!(triangle.1[..9], [0, 0, 0, 1_048_576, 0, -20, -1_048_576, 7, 3]);
    assert_eq!(triangle.1[9..], [0; COORDINATES - 9]);
    assert_eq!(exported(&triangle), TRIANGLE);
    assert_eq!(exported(&imported(FOREIGN)), TRIANGLE);
    assert_eq!(exported(&imported("OFF 0 0 9")), "OFF\n0 0 0\n");
}

#[test]
fn a_script_between_import_and_export() {
    let (mut pattern, mut coordinates) = imported(TWO);
    // split seam 2, which both panels have; the new corner is the caller's to place
    assert_eq!(pattern.apply(&[0x31, 2]), Ok(()));
    coordinates[12..15].copy_from_slice(&[4, 5, -1]);
    assert_eq!(pattern.apply(&[0x52, 1]), Ok(()));
    let text = TWO.replace("4 2 5", "5 2 6").replace("3 0 1 2\n3 0 2 3\n", "4 5 -1\n4 0 1 2 4\n4 0 3 2 4\n");
    assert_eq!(exported(&(pattern, coordinates)), text);
}

#[test]
fn a_refused_text_leaves_the_empty_pattern() {
    for (text, number) in [
        ("off 0 0 0", Refusal::WRONG_OFF),
        ("OFF 0 0 0 0", Refusal::WRONG_OFF),
        ("OFF 97 0 0", Refusal::WRONG_OFF),
        ("OFF 1 0 0 0 1048577 0", Refusal::WRONG_OFF),
        ("OFF 1 0 0 0 0.5 0", Refusal::WRONG_OFF),
        ("OFF 3 1 0 0 0 0 0 0 0 0 0 0 3 0 1 3", Refusal::NO_SUCH_CELL),
        ("OFF 3 1 0 0 0 0 0 0 0 0 0 0 3 0 1 1", Refusal::NOT_CLOSED),
        ("OFF 3 1 0 0 0 0 0 0 0 0 0 0 2 0 1", Refusal::NOT_CLOSED),
    ] {
        let (mut pattern, mut coordinates) = imported(TRIANGLE);
        assert_eq!(pattern.import_off(text.as_bytes(), &mut coordinates), refused(number), "{text}");
        assert!(*pattern == Pattern::default() && coordinates == [0; COORDINATES], "{text}");
    }
}

#[test]
fn seams_that_do_not_fit_are_refused() {
    // no two of these triangles have a seam in common
    let text = |panels: usize| {
        let lines: String = (0..panels).map(|corner| format!("3 {corner} {} {}\n", corner + 1, corner + 3)).collect();
        format!("OFF 96 {panels} 0 {}{lines}", "0 0 0 ".repeat(96))
    };
    assert_eq!(imported(&text(32)).0.counts, [96, 96, 32, 0]);
    let (mut pattern, mut coordinates) = imported(TRIANGLE);
    assert_eq!(pattern.import_off(text(33).as_bytes(), &mut coordinates), refused(Refusal::NO_ROOM));
}

#[test]
fn a_refused_export_touches_nothing() {
    let (mut pattern, mut coordinates) = imported(TRIANGLE);
    let mut out = [9; 60];
    let refused_by = |pattern: &Pattern, coordinates: &Coordinates, out: &mut [u8], number| {
        assert_eq!(pattern.export_off(coordinates, out), refused(number));
    };
    refused_by(&pattern, &coordinates, &mut out[..TRIANGLE.len() - 1], Refusal::SHORT_OUTPUT);
    // a corner in no panel is none of the four reasons, a seam in no panel is one
    assert_eq!(pattern.apply(&[0x10]), Ok(()));
    refused_by(&pattern, &coordinates, &mut out[..0], Refusal::SHORT_OUTPUT);
    assert_eq!(pattern.apply(&[0x11, 0, 3]), Ok(()));
    refused_by(&pattern, &coordinates, &mut out, Refusal::NOT_PLAIN);
    coordinates[11] = -1_048_577;
    refused_by(&pattern, &coordinates, &mut out, Refusal::WRONG_OFF);
    pattern.counts[1] -= 1;
    refused_by(&pattern, &coordinates, &mut out, Refusal::NOT_GOOD);
    assert_eq!(out, [9; 60]);
}

#[test]
fn wrong_lengths_are_refused() {
    let (mut m1, mut m2, mut m3) = ([4; SIZE], [5; SIZE], [6; SIZE]);
    for length in [0, 96, COORDINATES - 1, COORDINATES + 1] {
        let mut list = vec![3; length];
        assert_eq!(calls::import_off([&mut m1, &mut m2, &mut m3], &mut list, TRIANGLE.as_bytes()), (1, [0; 4]));
        assert_eq!(list, vec![3; length]);
        assert_eq!(calls::export_off([0; 4], [&m1, &m2, &m3], &list, &mut [0; 60]), (1, 0));
    }
    let mut list = [3; COORDINATES];
    assert_eq!(calls::import_off([&mut m1, &mut m2[1..], &mut m3], &mut list, TRIANGLE.as_bytes()), (1, [0; 4]));
    assert_eq!((m1, m2, m3, list), ([4; SIZE], [5; SIZE], [6; SIZE], [3; COORDINATES]));
}
