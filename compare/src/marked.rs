//! The sheet of document 01, the smallest sheet that passes, and the cases whose outcome is stated beforehand.
use crate::answer::Judgement;
use crate::grammars::{pairs, prefixed, twos};
use crate::make::{make, Sort};
use crate::tails::filling;

/// The small box sheet, without its tail line.
pub const BOX: &str = "\
terms=3
nonterms=3
rules=5
rule=4 0 5 1
rule=5 5 6
rule=5 6
rule=6 2
rule=6 4
states=9
state=2 2
item=5 0 3
item=0 0 0 1 2 3
go=0 1
go=4 2
state=6 5
item=0 1 0 1 2 3
item=1 0 0 1 2
item=2 0 0 1 2
item=3 0 0 1 2
item=4 0 0 1 2
item=0 0 0 1 2 3
go=0 1
go=2 3
go=4 4
go=5 5
go=6 6
state=1 0
item=5 1 3
state=1 0
item=3 1 0 1 2
state=1 0
item=4 1 0 1 2
state=5 5
item=0 2 0 1 2 3
item=1 1 0 1 2
item=3 0 0 1 2
item=4 0 0 1 2
item=0 0 0 1 2 3
go=0 1
go=1 7
go=2 3
go=4 4
go=6 8
state=1 0
item=2 1 0 1 2
state=1 0
item=0 3 0 1 2 3
state=1 0
item=1 2 0 1 2
";

/// The smallest sheet that passes.
pub const TINY: &str = "\
terms=1
nonterms=1
rules=1
rule=2 0
states=3
state=2 2
item=1 0 1
item=0 0 1
go=0 1
go=2 2
state=1 0
item=0 1 1
state=1 0
item=1 1 1
";

/// A sheet with line k made another one. The old line is given too, so that a slip shows.
pub fn made(sheet: &str, k: usize, old: &str, new: &str) -> String {
    let mut lines: Vec<&str> = sheet.lines().collect();
    assert_eq!(lines[k], old, "line {k}");
    lines[k] = new;
    lines.iter().map(|line| format!("{line}\n")).collect()
}

/// The sheet of P10: a go line that leads elsewhere.
pub fn p10() -> String {
    made(BOX, 39, "go=1 7", "go=1 8")
}

/// The sheet of P11: state 3's item lacks a look-ahead.
pub fn p11() -> String {
    made(BOX, 29, "item=3 1 0 1 2", "item=3 1 0 1")
}

/// The sheet that still passes: state 3's item has one more look-ahead.
pub fn wider() -> String {
    made(BOX, 29, "item=3 1 0 1 2", "item=3 1 0 1 2 3")
}

/// The sheet of P12: the accept rule with another set.
pub fn p12() -> String {
    made(BOX, 27, "item=5 1 3", "item=5 1 0 3")
}

/// A case with its outcome: name, input, answer, value, steps.
pub struct Marked {
    pub name: String,
    pub input: Vec<u8>,
    pub outcome: Judgement,
}

/// A case of a sheet and a tail.
fn case(name: &str, sheet: &str, tail: &str, (answer, value, steps): (u64, u64, u64)) -> Marked {
    let input = format!("{sheet}tail={tail}\n").into_bytes();
    Marked { name: name.to_string(), input, outcome: Judgement { answer, value, steps } }
}

/// A case of an input as it stands.
fn plain(name: &str, input: &str, answer: u64, value: u64) -> Marked {
    Marked { name: name.to_string(), input: input.into(), outcome: Judgement { answer, value, steps: 0 } }
}

/// The smallest sheet with a tail line of as many tokens as make this count of bytes in all.
fn of_bytes(bytes: usize) -> String {
    let empty = format!("{TINY}tail=\n").len();
    format!("{TINY}tail={}\n", filling(bytes - empty))
}

/// The tails that are marked in document 01, and what it says of changed sheets.
pub fn document() -> Vec<Marked> {
    let row = |count: usize| vec!["0"; count].join(" ");
    vec![
        case("P1", BOX, "", (0, 0, 0)),
        case("P2", BOX, "0", (0, 1, 0)),
        case("P3", BOX, "2 1", (0, 2, 3)),
        case("P4", BOX, "0 1", (1, 1, 0)),
        case("P5", BOX, "1 1", (0, 2, 4)),
        case("P6", BOX, "1 2 1", (0, 3, 6)),
        case("P7", BOX, "0 2 1", (0, 3, 2)),
        case("P8", BOX, "0 2 1 0", (0, 4, 6)),
        case("P9", BOX, "3", (31, 0, 0)),
        case("P10", &p10(), "", (22, 0, 0)),
        case("P11", &p11(), "", (22, 0, 0)),
        case("P12", &p12(), "", (22, 0, 0)),
        case("P10 and a tail", &p10(), "2 1", (22, 0, 0)),
        case("P11 and a tail", &p11(), "2 1", (22, 0, 0)),
        case("P12 and a tail", &p12(), "2 1", (22, 0, 0)),
        case("still passes", &wider(), "2 1", (0, 2, 3)),
        case("111 tokens fit", BOX, &row(111), (0, 111, 0)),
        case("112 tokens", BOX, &row(112), (32, 8208, 0)),
    ]
}

/// The readings of document 01 that speak of the program.
fn program_readings() -> Vec<Marked> {
    let long = |count: usize| vec!["0"; count].join(" ");
    vec![
        plain("1: no tail line", TINY, 11, 13),
        plain("2: a line after the tail line", &format!("{TINY}tail=0\ntail=0\n"), 11, 14),
        plain("2: bytes after the tail line", &format!("{TINY}tail=0\n "), 11, 14),
        plain("3: no LF at the end", &format!("{TINY}tail=0"), 11, 14),
        plain("3: no LF at the end of a bad sheet", &format!("{}tail=0", &TINY[8..]), 11, 0),
        plain("4: empty", "", 11, 0),
        plain("4: one LF", "\n", 11, 0),
        plain("5: form before range", &format!("{TINY}tail=99999 00\n"), 11, 14),
        plain("5: range", &format!("{TINY}tail=0 65536\n"), 12, 14),
        plain("5: largest number", &format!("{TINY}tail=0 65535\n"), 31, 1),
        plain("5: the tail line before the check", &format!("{}tail=99999\n", p10()), 12, 49),
        plain("5: the tail line before 30", &format!("{TINY}tail={} 99999\n", long(500)), 12, 14),
        plain("6: 16,000 bytes", &of_bytes(16_000), 30, 400),
        plain("6: one more", &of_bytes(16_001), 10, 0),
        case("7: 339 tokens", TINY, &long(339), (1, 1, 0)),
        case("7: 340 tokens", TINY, &long(340), (32, 8208, 0)),
        case("400 tokens", TINY, &long(400), (32, 9648, 0)),
        case("401 tokens", TINY, &long(401), (30, 400, 0)),
        case("401 tokens after the check", &p12(), &long(401), (22, 0, 0)),
    ]
}

/// The readings of document 01 that speak of the sheet.
fn sheet_readings() -> Vec<Marked> {
    let cut = &TINY[..TINY.len() - 1];
    let shorter = made(TINY, 13, "item=1 1 1", "item=1 1 1 0");
    vec![
        plain("8: right form, wrong range", &made(TINY, 0, "terms=1", "terms=65537"), 12, 0),
        plain("8: six digits", &made(TINY, 0, "terms=1", "terms=100000"), 11, 0),
        plain("9: no numbers", &made(TINY, 3, "rule=2 0", "rule="), 12, 3),
        plain("9: a space after =", &made(TINY, 3, "rule=2 0", "rule= 2 0"), 11, 3),
        plain("9: a space at the end", &made(TINY, 3, "rule=2 0", "rule=2 0 "), 11, 3),
        plain("9: two spaces", &made(TINY, 3, "rule=2 0", "rule=2  0"), 11, 3),
        plain("10: a count too large", &made(TINY, 2, "rules=1", "rules=65"), 12, 2),
        plain("10: a rule too many called for", &made(TINY, 2, "rules=1", "rules=2"), 11, 4),
        plain("10: a state too many called for", &format!("{}tail=\n", made(TINY, 4, "states=3", "states=4")), 11, 14),
        plain("10: a state too few", &made(TINY, 4, "states=3", "states=2"), 12, 9),
        plain("11: a CR", &made(TINY, 0, "terms=1", "terms=1\r"), 11, 0),
        plain("12: a sheet without its last LF, and no tail line", cut, 11, 13),
        plain("12: the range of the last line", &format!("{shorter}tail=\n"), 12, 13),
        plain("13: the accept rule's dot", &format!("{}tail=\n", made(TINY, 13, "item=1 1 1", "item=1 2 1")), 12, 13),
        case("20: a token equal to T", TINY, "0 1", (31, 1, 0)),
    ]
}

/// Tails on which a mistake shows, worked out by hand from the forest's rules: a lower part is kept beside a tree that ends, the
/// highest root is taken first, one of two lower parts is kept.
pub fn sharp() -> Vec<Marked> {
    let slr = |grammar| String::from_utf8(make(&grammar, Sort::Slr).expect("within the ranges").sheet()).expect("ASCII");
    vec![
        case("a long and a normal reduction to one state", &slr(pairs()), "1 1 1 1", (0, 4, 11)),
        case("the lowest root first", &slr(prefixed()), "1 0 0", (0, 3, 6)),
        case("two lower parts", &slr(twos()), "0 0 0", (0, 3, 6)),
    ]
}

/// All of them.
pub fn all() -> Vec<Marked> {
    [document(), program_readings(), sheet_readings(), sharp()].into_iter().flatten().collect()
}
