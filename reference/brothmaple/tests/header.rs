//! The numbers of the C header are those of this crate.

use brothmaple::packed::Tag;
use brothmaple::state::{RECORD_WORDS, STATE_WORDS};
use brothmaple::{Cause, Move, MoveKind};

const HEADER: &str = include_str!("../../../include/brothmaple.h");

/// The enumerators whose names start with a prefix, each as its rest and its value, in order.
fn enumerators(prefix: &str) -> Vec<(&'static str, u32)> {
    let of_line = |line: &'static str| {
        let (name, value) = line.trim().strip_prefix(prefix)?.split_once(" = ")?;
        let digits = value.find(|c: char| !c.is_ascii_digit()).unwrap_or(value.len());
        Some((name, value[..digits].parse().ok()?))
    };
    HEADER.lines().filter_map(of_line).collect()
}

fn defined(name: &str) -> usize {
    let line = HEADER.lines().find_map(|line| line.strip_prefix(&format!("#define {name} ")));
    line.unwrap().parse().unwrap()
}

#[test]
fn refusals() {
    let expected = Cause::ALL.map(|cause| {
        let name = cause.word().replace(' ', "_").to_uppercase();
        (name, u32::from(cause.number()))
    });
    let found = enumerators("BM_REFUSAL_");
    assert!(found.iter().map(|&(name, value)| (name.to_string(), value)).eq(expected));
}

#[test]
fn words_of_refusals() {
    let table = HEADER.split_once("words[] = {\"\",").unwrap().1.split_once("};").unwrap().0;
    let words = table.split(',').map(|word| word.trim().trim_matches('"'));
    assert!(words.eq(Cause::ALL.map(Cause::word)));
}

#[test]
fn tags() {
    let expected = [
        ("NONE", Tag::None),
        ("CLAUSE", Tag::Clause),
        ("MODEL", Tag::Model),
        ("ESTIMATE", Tag::Estimate),
        ("YES", Tag::Yes),
        ("NO", Tag::No),
        ("CALL", Tag::Call),
        ("NO_ROOM", Tag::NoRoom),
    ];
    assert_eq!(enumerators("BM_TAG_"), expected.map(|(name, tag)| (name, tag as u32)));
}

#[test]
fn kinds_of_moves() {
    let expected = [
        ("DROP", MoveKind::Drop),
        ("SPREAD", MoveKind::Spread),
        ("NEW", MoveKind::New),
        ("COPY", MoveKind::Copy),
        ("EXPOSE", MoveKind::Expose),
        ("HIDE", MoveKind::Hide),
        ("UNHIDE", MoveKind::Unhide),
        ("INTRA", MoveKind::Intra),
        ("INTER", MoveKind::Inter),
    ];
    assert_eq!(enumerators("BM_MOVE_"), expected.map(|(name, kind)| (name, kind as u32)));
}

#[test]
fn sizes() {
    assert_eq!(defined("BM_STATE_WORDS"), STATE_WORDS);
    assert_eq!(defined("BM_RECORD_WORDS"), RECORD_WORDS);
    assert_eq!((size_of::<Move>(), align_of::<Move>()), (20, 4));
}
