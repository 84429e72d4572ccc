//! OFF texts in and out: what they mean, what is left, and which patterns have none.

mod common;

use common::{import_refusal, Lent, Placed, T, TETRAHEDRON};
use second::OffObstacle::{self, Block, LooseSeam, NotOneRing, SameEnds};

/// T of the document as an OFF text.
const T_TEXT: &str = "OFF\n3 1 3\n0 0 0\n1048576 0 -20\n-1048576 7 3\n3 0 1 2\n";

/// Two triangles on either side of a seam.
const TWO: &str = "OFF\n4 2 5\n0 0 0\n0 0 0\n0 0 0\n0 0 0\n3 0 1 2\n3 0 2 3\n";

/// A text of panel lines, with every corner at one place.
fn flat(corners: usize, lines: &[&str]) -> String {
    format!("OFF {corners} {} 0 {}{}", lines.len(), "0 0 0 ".repeat(corners), lines.join(" "))
}

fn refusal(corners: usize, lines: &[&str]) -> u8 {
    import_refusal(flat(corners, lines).as_bytes())
}

/// Good pattern of a mesh, with its corners at one place.
fn placed(mesh: &[u8]) -> Placed {
    Placed { lent: Lent::read(mesh), ..Placed::empty() }
}

/// What stands against a text; the export agrees, and changes nothing.
fn obstacle(lent: &Lent) -> Option<OffObstacle> {
    let found = second::off_obstacle(lent.counts, &lent.m1, &lent.m2, &lent.m3);
    let mut out = [9; 1_000];
    let (refusal, written) = Placed { lent: lent.clone(), ..Placed::empty() }.export(&mut out);
    assert_eq!(refusal, if found.is_some() { 19 } else { 0 });
    assert!(out[written..].iter().all(|&byte| byte == 9));
    found
}

#[test]
fn t_in_and_out() {
    let imported = Placed::imported(T_TEXT);
    assert_eq!(imported.lent, Lent::read(&[3, 3, 0, 1, 1, 2, 2, 0, 1, 3, 0, 1, 1, 1, 2, 1, 0]));
    assert_eq!(imported.coordinates[..9], [0, 0, 0, 1_048_576, 0, -20, -1_048_576, 7, 3]);
    assert_eq!(imported.coordinates[9..], [0; 279]);
    assert_eq!(imported.text(), T_TEXT);
    // The document's own seams are others; the text is the same.
    let mut document = Placed { lent: Lent::read(&T), ..imported };
    assert_eq!(document.text(), T_TEXT);
    assert_eq!(document.lent.apply(&[0x52, 0]), 0);
    assert_eq!(document.text(), T_TEXT.replace("3 0 1 2", "3 0 2 1"), "the other way round");
    for seam in 0..3 {
        assert_eq!(document.lent.apply(&[0x51, seam]), 0);
        assert_eq!(document.text(), T_TEXT.replace("3 0 1 2", "3 0 2 1"), "whatever a seam's direction");
    }
}

#[test]
fn no_cells_and_no_panels() {
    assert_eq!(Placed::imported("OFF 0 0 0"), Placed::empty());
    assert_eq!(Placed::imported("OFF 000 0 9999999 "), Placed::empty());
    assert_eq!(Placed::empty().text(), "OFF\n0 0 0\n");
    let corners = Placed::imported("OFF 2 0 1 -0 5 6 7 8 -9");
    assert_eq!(corners.lent, Lent::read(&[2, 0, 0, 0]));
    assert_eq!(corners.text(), "OFF\n2 0 0\n0 5 6\n7 8 -9\n");
}

#[test]
fn seams_as_first_met() {
    let two = Placed::imported(TWO);
    let seams = [0, 1, 1, 2, 2, 0, 2, 3, 3, 0];
    let panels = [3, 0, 1, 1, 1, 2, 1, 3, 2, 2, 3, 1, 4, 1];
    assert_eq!(two.lent.mesh(), [&[4, 5][..], &seams, &[2], &panels, &[0]].concat());
    assert_eq!(two.text(), TWO);
    // Met the same way by both panels.
    let along = Placed::imported(&flat(4, &["3 2 0 1", "3 3 2 0"]));
    let seams = [2, 0, 0, 1, 1, 2, 3, 2, 0, 3];
    let panels = [3, 0, 1, 1, 1, 2, 1, 3, 0, 1, 3, 1, 4, 1];
    assert_eq!(along.lent.mesh(), [&[4, 5][..], &seams, &[2], &panels, &[0]].concat());
    assert!(along.text().ends_with("0\n3 0 1 2\n3 0 3 2\n"));
}

#[test]
fn rings_begin_at_their_lowest_corner() {
    for line in ["4 1 5 3 2", "4 5 3 2 1", "4 3 2 1 5", "4 2 1 5 3"] {
        let placed = Placed::imported(&flat(6, &[line]));
        assert!(placed.text().ends_with("0 0 0\n4 1 5 3 2\n"), "{line}");
    }
    let twice = Placed::imported(&flat(3, &["3 1 2 0", "3 2 0 1", "3 2 1 0"]));
    assert_eq!(twice.lent.counts, [3, 3, 3, 0]);
    assert!(twice.text().ends_with("0\n3 0 1 2\n3 0 1 2\n3 0 2 1\n"));
    let ring: String = (0..96).map(|corner| format!(" {}", (corner * 5 + 40) % 96)).collect();
    let longest = Placed::imported(&flat(96, &[&format!("96{ring}")]));
    assert_eq!(longest.lent.counts, [96, 96, 1, 0]);
    assert!(longest.text().contains("\n96 0 5 10 15 ") && longest.text().ends_with(" 86 91\n"));
}

#[test]
fn panel_by_panel() {
    for line in ["3 0 1 3", "3 3 0 1", "3 0 0 3", "2 0 3", "1 3", "3 0 1 256", "3 0 1 258", "3 0 1 9999999"] {
        assert_eq!(refusal(3, &[line]), 5, "{line}");
    }
    for line in ["0", "1 0", "2 0 1", "3 0 1 0", "3 0 0 1", "3 0 1 1", "4 0 1 2 1", "4 0 1 2 0"] {
        assert_eq!(refusal(3, &[line]), 7, "{line}");
    }
    assert_eq!(refusal(0, &["0"]), 7);
    assert_eq!(refusal(0, &["1 0"]), 5);
    assert_eq!(refusal(3, &["3 0 1 2", "2 0 1", "3 0 1 3"]), 7);
    assert_eq!(refusal(3, &["3 0 1 2", "3 0 1 3", "2 0 1"]), 5);
    let each: String = (0..97).map(|corner| format!(" {corner}")).collect();
    assert_eq!(refusal(96, &[&format!("97{each}")]), 5, "a length over 96 is none of the form");
    assert_eq!(refusal(96, &[&format!("97{}", " 0".repeat(97))]), 7);
    assert_eq!(refusal(96, &[&format!("300{}", " 95".repeat(300))]), 7);
}

#[test]
fn seams_that_do_not_fit() {
    // No two of these triangles have a seam in common.
    let triangles: Vec<String> = (0..32).map(|corner| format!("3 {corner} {} {}", corner + 1, corner + 3)).collect();
    let after = |full: usize, more: &[&str]| {
        let mut lines: Vec<&str> = triangles[..full].iter().map(String::as_str).collect();
        lines.extend(more);
        refusal(96, &lines)
    };
    assert_eq!(after(32, &[]), 0);
    assert_eq!(after(32, &["3 0 50 60"]), 6);
    assert_eq!(after(31, &["3 0 50 60"]), 0);
    assert_eq!(after(31, &["4 0 50 60 70"]), 6);
    assert_eq!(after(31, &["3 0 50 60", "3 60 0 50", "3 50 0 60"]), 0, "no seam more");
    assert_eq!(after(32, &["3 0 1 3", "4 0 1 2 3"]), 0, "of seams that are there");
    assert_eq!(after(32, &["3 0 1 50"]), 6);
    assert_eq!(after(32, &["3 0 50 50"]), 7, "7 before 6");
    assert_eq!(after(32, &["3 0 50 96"]), 5, "5 before 6");
    assert_eq!(after(32, &["3 0 50 60", "3 0 1 96"]), 6, "panel by panel");
    assert_eq!(after(32, &["3 0 50 60", "3 0 1"]), 18);
    let text = Placed::imported(&flat(96, &triangles.iter().map(String::as_str).collect::<Vec<_>>())).text();
    assert!(text.starts_with("OFF\n96 32 96\n"));
    let full = ["3 0 1 2"; 96];
    assert_eq!(Placed::imported(&flat(3, &full)).lent.counts, [3, 3, 96, 0]);
    assert_eq!(refusal(3, &["3 0 1 2"; 97]), 18);
}

#[test]
fn lists_of_wrong_length() {
    for (at, length) in [(0, 9_215), (0, 0), (1, 9_217), (2, 9_215), (3, 287), (3, 289), (3, 0), (3, 96)] {
        let mut lent = Placed::soiled();
        match at {
            0 => lent.lent.m1.resize(length, 7),
            1 => lent.lent.m2.resize(length, 7),
            2 => lent.lent.m3.resize(length, 7),
            _ => lent.coordinates.resize(length, 7),
        }
        let mut out = [9; 100];
        assert_eq!(lent.export(&mut out), (1, 0), "before 2");
        assert_eq!(out, [9; 100]);
        for text in [T_TEXT, "", "OFF 3 1 0"] {
            let before = lent.clone();
            assert_eq!(lent.import(text.as_bytes()), 1, "before 18");
            assert_eq!(lent.lent.counts, [0; 4]);
            lent.lent.counts = before.lent.counts;
            assert_eq!(lent, before);
        }
    }
}

#[test]
fn export_order() {
    let mut lent = placed(&TETRAHEDRON);
    let mut out = [9; 100];
    lent.coordinates[11] = 1_048_577;
    lent.lent.m1[0] = 0;
    assert_eq!(lent.export(&mut out[..0]), (2, 0));
    lent.lent.m1[0] = -1;
    assert_eq!(lent.export(&mut out[..0]), (18, 0));
    lent.coordinates[11] = 1_048_576;
    assert_eq!(lent.export(&mut out[..0]), (19, 0));
    assert_eq!(lent.lent.apply(&[0x23, 0]), 0);
    assert_eq!(lent.export(&mut out[..0]), (15, 0));
    assert_eq!(out, [9; 100]);
    let text = "OFF\n4 4 6\n0 0 0\n0 0 0\n0 0 0\n0 0 1048576\n3 0 1 2\n3 0 1 3\n3 0 2 3\n3 1 2 3\n";
    assert_eq!(lent.text(), text);
}

#[test]
fn coordinates_going_out() {
    let mut lent = placed(&T);
    lent.coordinates[9..].fill(i32::MIN);
    assert_eq!(lent.text(), T_TEXT.replace("1048576 0 -20\n-1048576 7 3", "0 0 0\n0 0 0"), "what is past the corners is not looked at");
    let mut out = [9; 100];
    for at in 0..9 {
        for wrong in [1_048_577, -1_048_577, i32::MIN, i32::MAX] {
            lent.coordinates[at] = wrong;
            assert_eq!(lent.export(&mut out), (18, 0));
        }
        lent.coordinates[at] = -1_048_576;
        assert!(lent.text().contains("-1048576"));
    }
    assert_eq!(out, [9; 100]);
}

#[test]
fn export_touches_what_it_reports() {
    let lent = Placed::imported(T_TEXT);
    let before = lent.clone();
    let length = T_TEXT.len();
    let mut out = [9; 60];
    assert_eq!(lent.export(&mut out[..length - 1]), (15, 0));
    assert_eq!(out, [9; 60]);
    assert_eq!(lent.export(&mut out), (0, length));
    assert_eq!(out[..length], *T_TEXT.as_bytes());
    assert!(out[length..].iter().all(|&byte| byte == 9));
    assert_eq!(lent.export(&mut out[..length]), (0, length));
    assert_eq!(lent, before);
}

#[test]
fn patterns_without_a_text() {
    assert_eq!(obstacle(&Lent::read(&T)), None);
    let mut block = Lent::read(&TETRAHEDRON);
    assert_eq!(obstacle(&block), Some(Block));
    assert_eq!((block.apply(&[0x10]), block.apply(&[0x11, 0, 4])), (0, 0));
    assert_eq!(obstacle(&block), Some(Block), "before the loose seam");
    assert_eq!(block.apply(&[0x23, 0]), 0);
    assert_eq!(obstacle(&block), Some(LooseSeam));
    assert_eq!((block.apply(&[0x21, 6]), obstacle(&block)), (0, None), "a corner in no panel is none");
    assert_eq!(block.apply(&[0x11, 1, 0]), 0);
    assert_eq!(obstacle(&block), Some(LooseSeam), "before the same ends");
    // Panels of two seams: both 0 to 1, or there and back.
    assert_eq!(obstacle(&Lent::read(&[2, 2, 0, 1, 0, 1, 1, 2, 0, 1, 1, 2, 0])), Some(SameEnds));
    assert_eq!(obstacle(&Lent::read(&[2, 2, 0, 1, 1, 0, 1, 2, 0, 1, 1, 1, 0])), Some(SameEnds));
    // Not one ring either: two such panels in one.
    let pairs = [4, 4, 0, 1, 1, 0, 2, 3, 3, 2, 1, 4, 0, 1, 1, 1, 2, 1, 3, 1, 0];
    assert_eq!(obstacle(&Lent::read(&pairs)), Some(SameEnds));
    let mut bad = Lent::read(&pairs);
    bad.m2[0] = 0;
    assert_eq!(second::off_obstacle(bad.counts, &bad.m1, &bad.m2, &bad.m3), None, "not good, so not asked");
}

#[test]
fn panels_that_are_not_one_ring() {
    let panel = [1, 6, 0, 1, 1, 1, 2, 1, 3, 1, 4, 1, 5, 1, 0];
    let mesh = |corners: u8, seams: [u8; 12]| [&[corners, 6][..], &seams, &panel].concat();
    let apart = Lent::read(&mesh(6, [0, 1, 1, 2, 2, 0, 3, 4, 4, 5, 5, 3]));
    assert_eq!(obstacle(&apart), Some(NotOneRing));
    for eight in [[0, 1, 1, 2, 2, 0, 0, 3, 3, 4, 4, 0], [1, 0, 0, 2, 2, 1, 3, 2, 2, 4, 4, 3], [3, 4, 4, 0, 0, 3, 4, 1, 1, 2, 2, 4]] {
        assert_eq!(obstacle(&Lent::read(&mesh(5, eight))), Some(NotOneRing), "a figure of eight");
    }
    let ring = Lent::read(&mesh(6, [4, 1, 2, 5, 0, 3, 1, 2, 3, 4, 5, 0]));
    assert_eq!(obstacle(&ring), None);
    let text = Placed { lent: ring, ..Placed::empty() }.text();
    assert!(text.ends_with("\n6 0 3 4 1 2 5\n"));
    // Beside a panel that is one ring.
    let mut lent = Placed::imported(&flat(6, &["3 0 1 2", "3 3 4 5"])).lent;
    assert_eq!(lent.apply(&[0x12, 6, 0, 1, 1, 1, 2, 1, 3, 1, 4, 1, 5, 1]), 0);
    assert_eq!(obstacle(&lent), Some(NotOneRing));
}
