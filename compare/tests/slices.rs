//! What is written into slices, and what is left alone.
use compare::answer::Judgement;
use compare::judge::judge;
use compare::limits;
use compare::marked::{p12, BOX, TINY};
use compare::sheet::{read, read_into};

fn told(answer: u64, value: u64, steps: u64) -> Judgement {
    Judgement { answer, value, steps }
}

/// The numbers of a sheet that can be read.
fn numbers(sheet: &str) -> Vec<u16> {
    read(sheet.as_bytes()).expect("a good sheet").numbers
}

#[test]
fn the_reader_writes_its_numbers_and_no_more() {
    let needed = numbers(TINY).len();
    let mut slice = vec![7; needed + 3];
    assert_eq!(read_into(TINY.as_bytes(), &mut slice), told(0, needed as u64, 0));
    assert_eq!(slice[..needed], numbers(TINY));
    assert_eq!(slice[needed..], [7, 7, 7]);
}

#[test]
fn the_reader_needs_its_slice() {
    let needed = numbers(BOX).len();
    let mut slice = vec![7; needed];
    assert_eq!(read_into(BOX.as_bytes(), &mut slice[..needed - 1]), told(13, needed as u64, 0));
    assert!(slice.iter().all(|&number| number == 7));
    assert_eq!(read_into(BOX.as_bytes(), &mut slice), told(0, needed as u64, 0));
    let bad = BOX.replace("item=1 2 0 1 2\n", "item=1 9 0 1 2\n");
    assert_eq!(read_into(bad.as_bytes(), &mut []), told(12, 48, 0));
}

#[test]
fn the_reader_takes_60_000_bytes() {
    let long = |bytes: usize| format!("{TINY}{}", "x".repeat(bytes - TINY.len()));
    assert_eq!(read_into(long(limits::SHEET).as_bytes(), &mut []), told(11, 14, 0));
    assert_eq!(read_into(long(limits::SHEET + 1).as_bytes(), &mut []), told(10, 0, 0));
}

#[test]
fn the_judge_zeroes_its_words() {
    let mut room = vec![9; 300];
    assert_eq!(judge(&numbers(BOX), &[2, 1], &mut room), told(0, 2, 3));
    assert!(room[..288].iter().all(|&word| word == 0) && room[288..].iter().all(|&word| word == 9));
    room.fill(9);
    assert_eq!(judge(&numbers(BOX), &[0, 1], &mut room), told(1, 1, 0));
    assert!(room[..288].iter().all(|&word| word == 0) && room[288..].iter().all(|&word| word == 9));
    room.fill(9);
    assert_eq!(judge(&numbers(BOX), &[], &mut room), told(0, 0, 0));
    assert!(room[..144].iter().all(|&word| word == 0) && room[144..].iter().all(|&word| word == 9));
}

#[test]
fn a_refusal_leaves_the_room() {
    let mut room = vec![9; 287];
    let mut refused = |table: &[u16], tail: &[u16], answer, value| {
        assert_eq!(judge(table, tail, &mut room), told(answer, value, 0));
        assert!(room.iter().all(|&word| word == 9));
    };
    refused(&numbers(BOX), &[2, 1], 32, 288);
    refused(&numbers(BOX), &[2, 3], 31, 1);
    refused(&numbers(BOX), &[3; 4097], 30, 4096);
    refused(&numbers(BOX), &[0; 4096], 32, 8 * 9 * 4098);
    refused(&numbers(&p12()), &[3; 4097], 22, 0);
    refused(&[], &[], 12, 0);
}
