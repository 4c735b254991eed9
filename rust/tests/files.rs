//! The independent reader of Gerber files: what the independent writer writes is read back, and each of document 02's rules,
//! broken in turn, is found at its line.

use keekaboor_tests::areas::Random;
use keekaboor_tests::gerber::{read, written, Flash, Frame};
use keekaboor_tests::rules::FLASH_ROOM;

const FRAME: Frame = Frame { version: 2, pitch: 1_000_000, x: 0, y: 0 };
const ATTRIBUTE: &str = "%TF.FileFunction,Copper,L1,Top*%\n";
const COMMENT: &str = "G04 #@! TF.FileFunction,Copper,L1,Top*\n";
const HEAD: &str = "%TF.FileFunction,Copper,L1,Top*%\n%FSLAX46Y46*%\n%MOMM*%\n";
const FIRST: &str = "%ADD10R,3.000000X1.000000*%\n";
const SECOND: &str = "%ADD11R,1.000000X3.000000*%\n";
const CENTRE: &str = "X1500000Y1500000D03*\n";

fn line_of(text: &str) -> Option<u64> {
    match read(text.as_bytes(), FRAME, FLASH_ROOM) {
        Ok(_) => None,
        Err((30, line, 0)) => Some(line),
        Err(other) => panic!("{other:?}"),
    }
}

#[test]
fn each_rule_broken_in_turn() {
    let plus = format!("{HEAD}{FIRST}{SECOND}D10*\n{CENTRE}D11*\n{CENTRE}M02*\n");
    assert_eq!(line_of(&plus), None);
    assert_eq!(plus, written(FRAME, &[[0, 2, 1, 1], [1, 1, 0, 2]]));
    let comment = plus.replacen(ATTRIBUTE, COMMENT, 1);
    assert_eq!(line_of(&comment), None);
    assert_eq!(comment, written(Frame { version: 1, ..FRAME }, &[[0, 2, 1, 1], [1, 1, 0, 2]]));
    let swapped = |from: &str, to: &str| {
        assert!(plus.contains(from), "{from:?}");
        plus.replacen(from, to, 1)
    };
    let body = |lines: &str| format!("{HEAD}{lines}");
    let cases = [
        ("empty text", String::new(), 1),
        ("another head", swapped("Copper", "Legend"), 1),
        ("a comment with percent signs", swapped(ATTRIBUTE, "G04 #@! %TF.FileFunction,Copper,L1,Top*%\n"), 1),
        ("both first lines", swapped(ATTRIBUTE, &format!("{COMMENT}{ATTRIBUTE}")), 2),
        ("another format", swapped("46Y46", "35Y35"), 2),
        ("inches", swapped("MOMM", "MOIN"), 3),
        ("an aperture out of number", swapped("ADD11", "ADD12"), 5),
        ("an aperture repeated", body(&format!("{FIRST}%ADD11R,3.000000X1.000000*%\nD10*\n{CENTRE}M02*\n")), 5),
        ("an aperture larger than the grid", swapped("1.000000X3.000000", "1.000000X65.000000"), 5),
        ("an aperture of size 0", swapped("1.000000X3.000000", "0.000000X3.000000"), 5),
        ("no whole number of squares", swapped("1.000000X3.000000", "1.500000X3.000000"), 5),
        ("five decimals", swapped("1.000000X3.000000", "1.00000X3.000000"), 5),
        ("a size with a leading zero", swapped("1.000000X3.000000", "01.000000X3.000000"), 5),
        (
            "an aperture line after the first select",
            body(&format!("{FIRST}D10*\n{CENTRE}{SECOND}D11*\n{CENTRE}M02*\n")),
            7,
        ),
        ("one unused", body(&format!("{FIRST}{SECOND}D10*\n{CENTRE}M02*\n")), 8),
        ("selected again while current", swapped("D11*", "D10*"), 8),
        ("a select straight after a select", swapped("D10*\n", "D10*\nD11*\n"), 7),
        ("an undefined one", swapped("D11*", "D12*"), 8),
        ("out of first-use order", swapped("D10*", "D11*"), 6),
        ("the end straight after a select", body(&format!("{FIRST}{SECOND}D10*\n{CENTRE}D11*\nM02*\n")), 9),
        ("a flash before any select", body(&format!("{FIRST}{CENTRE}")), 5),
        ("a missing end", swapped("M02*\n", ""), 10),
        ("no line feed at the end", plus[..plus.len() - 1].to_string(), 10),
        ("text past the end", format!("{plus}\n"), 11),
        ("two ends", format!("{plus}M02*\n"), 11),
        ("minus 0", swapped("X1500000", "X-0"), 7),
        ("a leading zero", swapped("X1500000", "X01500000"), 7),
        ("a plus sign", swapped("X1500000", "X+1500000"), 7),
        ("eleven digits", swapped("X1500000", "X10000000000"), 7),
        ("edges not on grid lines", swapped("X1500000", "X1500001"), 7),
        ("left of the grid", swapped("X1500000", "X500000"), 7),
        ("right of the grid", swapped("X1500000", "X63500000"), 7),
        ("a carriage return", swapped("D10*\n", "D10*\r\n"), 6),
        ("another command", swapped("D03*", "D01*"), 7),
    ];
    for (name, text, line) in cases {
        assert_eq!(line_of(&text), Some(line), "{name}");
    }
}

#[test]
fn a_65th_flash_and_a_65th_aperture() {
    let many = |count: usize| {
        let flashes: Vec<Flash> = (0..count).map(|k| [0, (k % 64) as u8, 0, (k / 64) as u8]).collect();
        written(FRAME, &flashes)
    };
    assert_eq!(line_of(&many(64)), None);
    assert_eq!(line_of(&many(65)), Some(3 + 65));
    let same = |count: usize| written(FRAME, &vec![[0, 0, 0, 0]; count]);
    assert_eq!(line_of(&same(64)), None);
    assert_eq!(line_of(&same(65)), Some(3 + 1 + 1 + 65));
}

#[test]
fn other_refusals_come_first() {
    assert_eq!(read(b"", Frame { version: 0, pitch: 1, ..FRAME }, FLASH_ROOM - 1), Err((3, 0, 0)));
    for version in [0, 3, 21, u64::MAX] {
        assert_eq!(read(b"", Frame { version, pitch: 1, ..FRAME }, FLASH_ROOM), Err((21, 0, 0)));
    }
    for pitch in [0, 1, 3, 1_000_001, 1_000_002] {
        assert_eq!(read(b"", Frame { pitch, ..FRAME }, FLASH_ROOM), Err((13, 0, 0)));
    }
    assert_eq!(read(b"", FRAME, FLASH_ROOM), Err((30, 1, 0)));
}

#[test]
fn what_is_written_is_read_back() {
    let mut random = Random::new(0x62_6163_6b);
    for _ in 0..20_000 {
        let mut side = || {
            let (a, b) = (random.below(64) as u8, random.below(64) as u8);
            (a.min(b), a.max(b))
        };
        let count = side().0 as usize + 1;
        let flashes: Vec<Flash> = (0..count).map(|_| (side(), side())).map(|((a, b), (c, d))| [a, b, c, d]).collect();
        let pitch = 2 * (1 + random.number() % 500_000);
        let mut origin = || (random.number() % 19_000_000_000) as i64 - 9_999_999_999;
        let frame = Frame { version: 1 + count as u64 % 2, pitch, x: origin(), y: origin() };
        let text = written(frame, &flashes);
        for version in [1, 2] {
            assert_eq!(read(text.as_bytes(), Frame { version, ..frame }, FLASH_ROOM), Ok(flashes.clone()));
        }
    }
}
