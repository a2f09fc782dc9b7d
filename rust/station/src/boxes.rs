//! A file of boxes: six numbers a line, the low voxel and the high one.

use std::path::Path;

/// From the low voxel to the high one, ends included.
pub type Zone = ([i32; 3], [i32; 3]);

/// The boxes of a file, or what is wrong with it: a bad line is named by its number.
pub fn read(path: &Path) -> Result<Vec<Zone>, String> {
    let name = path.display();
    let text = std::fs::read_to_string(path).map_err(|fault| format!("--boxes {name}: {fault}"))?;
    parse(&text).map_err(|fault| format!("--boxes {name}: {fault}"))
}

/// A `#` begins a comment; lines that hold nothing else are passed over.
fn parse(text: &str) -> Result<Vec<Zone>, String> {
    let mut boxes = Vec::new();
    for (i, line) in text.lines().enumerate() {
        let words: Vec<&str> = line.split('#').next().unwrap_or("").split_whitespace().collect();
        if !words.is_empty() {
            boxes.push(zone(&words).map_err(|fault| format!("line {}: {fault}", i + 1))?);
        }
    }
    Ok(boxes)
}

fn zone(words: &[&str]) -> Result<Zone, String> {
    if words.len() != 6 {
        return Err(format!("{} numbers, a box has six: LX LY LZ HX HY HZ", words.len()));
    }
    let number = |i: usize| words[i].parse().map_err(|fault| format!("{}: {fault}", words[i]));
    Ok(([number(0)?, number(1)?, number(2)?], [number(3)?, number(4)?, number(5)?]))
}

#[cfg(test)]
mod tests {
    use super::*;

    #[test]
    fn boxes_stand_one_a_line() {
        let text = "# hall 3\n0 0 0 7 7 7\n\n  -8 1\t2 3 4 5 # by the door\n";
        assert_eq!(parse(text), Ok(vec![([0; 3], [7; 3]), ([-8, 1, 2], [3, 4, 5])]));
        assert_eq!(parse("# nothing\n\n"), Ok(vec![]));
    }

    #[test]
    fn a_bad_line_is_named_by_its_number() {
        for (text, fault) in [
            ("0 0 0 7 7 7\n1 2 3\n", "line 2: 3 numbers, a box has six: LX LY LZ HX HY HZ"),
            ("1 2 3 4 5 6 7", "line 1: 7 numbers, a box has six: LX LY LZ HX HY HZ"),
            ("\n\n1 2 3 4 5 x", "line 3: x: invalid digit found in string"),
            ("1 2 3 4 5 2147483648", "line 1: 2147483648: number too large to fit in target type"),
        ] {
            assert_eq!(parse(text), Err(fault.to_string()), "{text}");
        }
    }
}
