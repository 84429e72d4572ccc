//! The form of OFF texts: words, numbers, and every kind of fault.

mod common;

use common::{import_refusal, Placed};
use second::OffFault::{self, Coordinate, CornerCount, Digits, Ends, Keyword, LeftOver, Minus, NotANumber, PanelCount};

/// A triangle: the keyword, three counts, nine coordinates, a length and three corners.
const WORDS: [&str; 17] = ["OFF", "3", "1", "0", "5", "-6", "0", "1", "0", "0", "0", "2", "0", "3", "0", "1", "2"];

fn is_coordinate(word: usize) -> bool {
    (4..13).contains(&word)
}

/// The triangle with one word exchanged.
fn with(at: usize, word: &str) -> String {
    let mut words = WORDS;
    words[at] = word;
    words.join(" ")
}

/// The first fault; the import agrees, and leaves zeros for it.
fn fault(text: impl AsRef<[u8]>) -> Option<OffFault> {
    let found = second::off_fault(text.as_ref());
    assert_eq!(import_refusal(text.as_ref()) == 18, found.is_some());
    found
}

#[test]
fn kinds_index_a_table() {
    let kinds = [Keyword, Ends, NotANumber, Digits, Minus, CornerCount, PanelCount, Coordinate, LeftOver];
    assert!(kinds.iter().enumerate().all(|(index, &kind)| kind as usize == index));
}

#[test]
fn every_separator() {
    let plain = Placed::imported(&WORDS.join(" "));
    assert_eq!(plain.coordinates[..10], [5, -6, 0, 1, 0, 0, 0, 2, 0, 0]);
    for run in [" ", "\t", "\r", "\n", "\r\n", "  ", "\n\n\n", " \t\r\n", "\n\r\t "] {
        let text = WORDS.join(run);
        for text in [text.clone(), format!("{text}{run}"), format!("{run}{text}"), format!("{run}{text}{run}")] {
            assert_eq!(Placed::imported(&text), plain, "{run:?}");
        }
        for at in 1..WORDS.len() {
            let text = [WORDS[..at].join(" "), WORDS[at..].join(" ")].join(run);
            assert_eq!(Placed::imported(&text), plain, "{run:?} before word {at}");
        }
    }
}

#[test]
fn no_other_separator() {
    let text = WORDS.join(" ");
    for byte in (0..=255).filter(|byte| !b" \t\r\n".contains(byte)) {
        let joined = |before: &str, after: &str| [before.as_bytes(), &[byte], after.as_bytes()].concat();
        assert_eq!(fault(joined("", &text)), Some(Keyword), "{byte}");
        assert_eq!(fault(joined("", &format!(" {text}"))), Some(Keyword), "{byte}");
        assert_eq!(fault(joined("OFF", &text[4..])), Some(Keyword), "{byte}");
        assert_eq!(fault(joined(&format!("{text}\n"), "")), Some(LeftOver), "{byte}");
        if !byte.is_ascii_digit() {
            assert_eq!(fault(joined(&text, "")), Some(NotANumber), "{byte}");
            assert_eq!(fault(joined("OFF 3", &text[6..])), Some(NotANumber), "{byte}");
        }
    }
}

#[test]
fn keyword() {
    for text in ["", " ", "\r\n\t ", "O", "OF", "off", "Off", "OFF3", "OFFF", "COFF", "OFF# 3", "3 1 0", "-", "\u{feff}OFF"] {
        assert_eq!(fault(text), Some(Keyword), "{text:?}");
    }
    assert_eq!(fault("OFF"), Some(Ends));
    assert_eq!(fault("OFF 0 0 0 OFF"), Some(LeftOver));
    assert_eq!(fault("OFF OFF 0 0 0"), Some(NotANumber));
}

#[test]
fn words_that_are_no_number() {
    for at in 1..WORDS.len() {
        for word in ["x", "1x", "x1", "+1", "+", "1.0", "1.", "1e3", "1-", "1-1", "0x1", "1,", "#", "1#", "\0", "\u{661}"] {
            assert_eq!(fault(with(at, word)), Some(NotANumber), "{word:?} as word {at}");
        }
        for word in ["-", "--1", "-+1", "- 1", "-x", "-1x", "-1-", "-1.0"] {
            let kind = if is_coordinate(at) { NotANumber } else { Minus };
            assert_eq!(fault(with(at, word)), Some(kind), "{word:?} as word {at}");
        }
        for word in ["00000000", "00000001", "10000000", "99999999999999999999999", "00000000x", "12345678-"] {
            assert_eq!(fault(with(at, word)), Some(Digits), "{word:?} as word {at}");
        }
        for word in ["-00000000", "-00000001", "-12345678x"] {
            let kind = if is_coordinate(at) { Digits } else { Minus };
            assert_eq!(fault(with(at, word)), Some(kind), "{word:?} as word {at}");
        }
        assert_eq!(fault(with(at, "1234567x")), Some(NotANumber), "the x before an eighth digit");
        for word in ["-0", "-1", "-0000000"] {
            let kind = if is_coordinate(at) { None } else { Some(Minus) };
            assert_eq!(fault(with(at, word)), kind, "{word:?} as word {at}");
        }
    }
}

#[test]
fn leading_zeros() {
    let plain = Placed::imported(&WORDS.join(" "));
    for (at, word) in WORDS.iter().enumerate().skip(1) {
        let longer = match word.strip_prefix('-') {
            Some(digits) => format!("-{digits:0>7}"),
            None => format!("{word:0>7}"),
        };
        assert_eq!(Placed::imported(&with(at, &longer)), plain, "word {at}");
    }
    for word in ["-0", "-0000000"] {
        assert_eq!(Placed::imported(&with(6, word)), plain);
    }
}

#[test]
fn counts_and_coordinates_in_range() {
    for (word, kind) in [("96", Ends), ("97", CornerCount), ("0000097", CornerCount), ("100", CornerCount), ("9999999", CornerCount)] {
        assert_eq!(fault(with(1, word)), Some(kind));
    }
    for (word, kind) in [("96", Ends), ("97", PanelCount), ("256", PanelCount), ("9999999", PanelCount), ("0", LeftOver)] {
        assert_eq!(fault(with(2, word)), Some(kind));
    }
    for word in ["1", "97", "300", "9999999"] {
        assert_eq!(fault(with(3, word)), None, "the third count is not used");
    }
    for at in 4..13 {
        for word in ["1048576", "-1048576"] {
            let placed = Placed::imported(&with(at, word));
            assert_eq!(placed.coordinates[at - 4].to_string(), word);
        }
        for word in ["1048577", "-1048577", "9999999", "-9999999"] {
            assert_eq!(fault(with(at, word)), Some(Coordinate));
        }
    }
    assert_eq!(fault(with(13, "4")), Some(Ends));
    assert_eq!(fault(with(13, "9999999")), Some(Ends));
    assert_eq!(fault(with(13, "2")), Some(LeftOver));
}

#[test]
fn the_first_fault_counts() {
    assert_eq!(fault("off 97 97"), Some(Keyword));
    assert_eq!(fault("OFF 97 97"), Some(CornerCount));
    assert_eq!(fault("OFF 97 x"), Some(CornerCount));
    assert_eq!(fault("OFF x 97"), Some(NotANumber));
    assert_eq!(fault("OFF 96 97"), Some(PanelCount));
    assert_eq!(fault("OFF 96 -97"), Some(Minus));
    assert_eq!(fault("OFF 1 97 -1 2000000"), Some(PanelCount));
    assert_eq!(fault("OFF 1 1 -1 2000000"), Some(Minus));
    assert_eq!(fault("OFF 1 1 0 2000000 00000000"), Some(Coordinate));
    assert_eq!(fault("OFF 1 1 0 00000000 2000000"), Some(Digits));
    assert_eq!(fault("OFF 1 1 0 0 0"), Some(Ends));
    assert_eq!(fault("OFF 1 0 0 0 0 0 x -1 00000000"), Some(LeftOver));
}

#[test]
fn form_before_meaning() {
    let lines = ["3 0 1 9", "3 0 0 1", "0"];
    for line in lines {
        let text = format!("OFF 3 2 0 0 0 0 0 0 0 0 0 0 {line} 3 0 1");
        assert_eq!(fault(&text), Some(Ends), "{line}");
        assert_eq!(fault(format!("{text} 2 3")), Some(LeftOver), "{line}");
        assert_eq!(fault(format!("{text} -2")), Some(Minus), "{line}");
        assert_ne!(import_refusal(format!("{text} 2").as_bytes()), 0, "{line}");
        assert_eq!(fault(format!("{text} 2")), None, "5 and 7 are none of the form");
    }
}

/// A text cut anywhere lacks a word, or has only its last word shortened.
#[test]
fn cut_at_every_byte() {
    // Each line, and what it is without its last digit: a refusal, or a panel going out.
    let lines = [("3 0 1 10", Err(7)), ("3 0 10 11\n", Ok("3 0 10 1\n")), ("4 9 8 7 11 \r\n", Ok("4 1 9 8 7\n")), ("3 0 1 2", Err(18))];
    for (line, shortened) in lines {
        let text = format!("OFF\n12 1 3\n{}{line}", "0 0 0\n".repeat(12));
        let words: Vec<&str> = text.split_ascii_whitespace().collect();
        let whole = Placed::imported(&text);
        for length in 0..text.len() {
            let cut = &text[..length];
            let left: Vec<&str> = cut.split_ascii_whitespace().collect();
            if left.len() < words.len() {
                let kind = if left.first() == Some(&"OFF") { Ends } else { Keyword };
                assert_eq!(fault(cut), Some(kind), "{cut}");
            } else if left == words {
                assert_eq!(Placed::imported(cut), whole, "only separators are gone");
            } else {
                match shortened {
                    Ok(panel) => assert!(Placed::imported(cut).text().ends_with(&format!("\n{panel}"))),
                    Err(refusal) => assert_eq!(import_refusal(cut.as_bytes()), refusal),
                }
            }
        }
    }
    // A length of two digits may lose its second.
    let cut = "OFF 3 1 0 0 0 0 0 0 0 0 0 0 0";
    assert_eq!(import_refusal(format!("{cut}3 0 1 2").as_bytes()), 0);
    assert_eq!(import_refusal(cut.as_bytes()), 7);
}
