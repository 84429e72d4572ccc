//! Where added corners are: lines `x y z`, with comments after `#`.

use mbyasoka::limits::COORDINATE_LIMIT;

pub type Point = [i32; 3];

fn coordinate(word: &str) -> Result<i32, String> {
    match word.parse() {
        Ok(value) if (-COORDINATE_LIMIT..=COORDINATE_LIMIT).contains(&value) => Ok(value),
        _ => Err(format!("{word} is no whole number within ±{COORDINATE_LIMIT}")),
    }
}

fn point(line: &str) -> Result<Point, String> {
    match line.split_whitespace().collect::<Vec<_>>()[..] {
        [x, y, z] => Ok([coordinate(x)?, coordinate(y)?, coordinate(z)?]),
        _ => Err("not three numbers".to_string()),
    }
}

/// The points, or what is wrong in which line. Lines with nothing but a comment do not count as points.
pub fn read(text: &str) -> Result<Vec<Point>, String> {
    let lines = text.lines().map(|line| line.split('#').next().unwrap_or("").trim()).enumerate();
    let told = |(at, line): (usize, &str)| point(line).map_err(|why| format!("line {}: {why}", at + 1));
    lines.filter(|(_, line)| !line.is_empty()).map(told).collect()
}

#[cfg(test)]
mod tests {
    use super::*;

    #[test]
    fn lines_and_comments() {
        assert_eq!(read(""), Ok(vec![]));
        assert_eq!(read("# none\n\n1 -2 3 # first\r\n  -1048576\t0 1048576"), Ok(vec![[1, -2, 3], [-1_048_576, 0, 1_048_576]]));
    }

    #[test]
    fn what_is_wrong_is_told_with_its_line() {
        for (text, told) in [
            ("1 2 3\n\n1 2", "line 3: not three numbers"),
            ("1 2 3 4", "line 1: not three numbers"),
            ("1 2 1048577", "line 1: 1048577 is no whole number within ±1048576"),
            ("# x\n0 -1048577 0", "line 2: -1048577 is no whole number within ±1048576"),
            ("1.5 2 3", "line 1: 1.5 is no whole number within ±1048576"),
            ("99999999999 0 0", "line 1: 99999999999 is no whole number within ±1048576"),
        ] {
            assert_eq!(read(text), Err(told.to_string()));
        }
    }
}
