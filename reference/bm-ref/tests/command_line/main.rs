//! The command line: what it prints, its statuses and its files.

mod arguments;
#[path = "../common/mod.rs"]
mod common;
mod reading;

use std::fs;
use std::path::Path;

use common::{fresh_folder, output, printed};

const K: &str = "\
free x z
received y
free u v c
box
  site x {c}
  x(y).0 | x<z>.0
box
  site u {c}
  u<v>.0
";

/// A folder with K as `m` and its least estimate as `e`.
fn with_k(name: &str) -> std::path::PathBuf {
    let folder = fresh_folder(name);
    fs::write(folder.join("k.txt"), K).unwrap();
    printed(&folder, &["asm", "k.txt", "m"]);
    printed(&folder, &["least", "m", "e"]);
    folder
}

fn write_moves(folder: &Path, moves: &str) {
    fs::write(folder.join("moves"), moves).unwrap();
}

#[test]
fn missing_name_is_the_fourth_number() {
    let folder = with_k("missing");
    let text = format!(
        "{K}estimate rho x {{x}} rho z {{z}} rho u {{u}} rho v {{v}} rho c {{c}}
        rho y {{v}} box 0 shown {{x}} eps x {{c}} kap x {{z}}
        box 1 shown {{u}} eps u {{c}} kap u {{v}}"
    );
    fs::write(folder.join("k.txt"), text).unwrap();
    printed(&folder, &["asm", "k.txt", "m", "e"]);
    assert_eq!(printed(&folder, &["check", "m", "e"]), "clause 5 0 1 1\n");
    assert_eq!(printed(&folder, &["shut-off", "m", "e", "9"]), "clause 5 0 1 1\n");
}

#[test]
fn shut_off_answers() {
    let folder = with_k("shut-off");
    assert_eq!(printed(&folder, &["shut-off", "m", "e", "0"]), "no\n");
    assert_eq!(printed(&folder, &["shut-off", "m", "e", "2"]), "refused 12 0 0\n");
}

#[test]
fn refused_block_places() {
    let folder = with_k("refused-block");
    assert_eq!(printed(&folder, &["refused-block", "m", "e"]), "model 0 0\n");
    let mut bytes = fs::read(folder.join("e")).unwrap();
    bytes[1024] ^= 1;
    fs::write(folder.join("bad"), &bytes).unwrap();
    assert_eq!(printed(&folder, &["refused-block", "m", "bad"]), "estimate 1024 512\n");
    assert_eq!(printed(&folder, &["refused-block", "bad", "m"]), "model 0 512\n");
}

#[test]
fn run_goes_on_from_its_own_words() {
    let folder = with_k("run");
    write_moves(&folder, "2 0 0 0 0\n\n9 0 0 1 0\n");
    assert_eq!(printed(&folder, &["run", "m", "moves", "--state", "all"]), "0\n0\n");
    write_moves(&folder, "2 0 0 0 0\n");
    assert_eq!(printed(&folder, &["run", "m", "moves", "--state", "one"]), "0\n");
    write_moves(&folder, "9 0 0 1 0\n");
    let args = ["run", "m", "moves", "--from", "one", "--state", "two"];
    assert_eq!(printed(&folder, &args), "0\n");
    let words = fs::read(folder.join("two")).unwrap();
    assert_eq!(words.len(), 4 * 9_112);
    assert_eq!(words, fs::read(folder.join("all")).unwrap());
    assert_ne!(words, fs::read(folder.join("one")).unwrap());
}

#[test]
fn steps_show_what_each_move_leaves() {
    let folder = with_k("steps");
    write_moves(&folder, "2 0 0 0 0\n9 0 0 1 0\n9 0 0 1 0\n");
    let start = "start answer 0 box 0 7 line 0 box 1 0 line 0\n";
    let spread = "move 2 0 0 0 0 answer 0 box 0 7 line 1 line 3 box 1 0 line 0\n";
    let left = "box 0 7 line 2 name 2 4 0 line 3 box 1 0 line 1\n";
    let inter = |answer| format!("move 9 0 0 1 0 answer {answer} {left}");
    let run = format!("run answer 0 answers 0 0 14 {left}");
    let expected = [start, spread, &inter(0), &inter(14), start, &run].concat();
    assert_eq!(printed(&folder, &["steps", "m", "moves", "7"]), expected);
    write_moves(&folder, "2 0 0 0 0\n");
    let expected =
        "start answer 1\nmove 2 0 0 0 0 answer 1\nstart answer 1\nrun answer 1 answers 0\n";
    let args = ["steps", "none", "moves", "0", "--missing-as-empty"];
    assert_eq!(printed(&folder, &args), expected);
}

#[test]
fn refused_runs_write_nothing() {
    let folder = with_k("refused-run");
    write_moves(&folder, "1 0 0 0 0\n");
    for (bytes, line) in [
        (vec![0; 4 * 9_111], "refused 10 0 0\n"),
        (vec![0; 4 * 9_112 + 1], "refused 10 0 0\n"),
        (vec![0; 4 * 9_112 - 1], "refused 10 0 0\n"),
        (vec![1; 4 * 9_112], "refused 11 0 0\n"),
    ] {
        fs::write(folder.join("from"), bytes).unwrap();
        let args = ["run", "m", "moves", "--from", "from", "--state", "to"];
        assert_eq!(printed(&folder, &args), line);
        assert!(!folder.join("to").exists());
    }
    let args = ["run", "none", "moves", "--state", "to", "--missing-as-empty"];
    assert_eq!(printed(&folder, &args), "refused model 1 0 0\n");
    assert!(!folder.join("to").exists());
}

/// Holds a command to its status and its line on standard error, with nothing
/// on standard output.
fn fails(folder: &Path, args: &[&str], status: i32, line: &str) {
    let output = output(folder, args);
    let told = String::from_utf8(output.stderr).unwrap();
    assert_eq!((output.status.code(), told), (Some(status), format!("bm-ref: {line}\n")));
    assert!(output.stdout.is_empty(), "{args:?}");
}

#[test]
fn text_errors_say_line_and_column() {
    let folder = with_k("errors");
    fs::write(folder.join("bad.txt"), "free x c\nbox\n  site x {c}\n  x<q>.0\n").unwrap();
    let expected = "bad.txt: line 4, column 5: expected a declared name, found the name 'q'";
    fails(&folder, &["asm", "bad.txt", "bad"], 1, expected);
    assert!(!folder.join("bad").exists());
    let expected = "k.txt: line 9, column 9: expected 'estimate', found the end of the text";
    fails(&folder, &["asm", "k.txt", "bad", "e2"], 1, expected);
    assert!(!folder.join("bad").exists() && !folder.join("e2").exists());
    write_moves(&folder, "# drop\n1 0 0 0 0\n1 2 3 4 # too few\n");
    let expected = "moves: line 3, column 8: expected five numbers on the line, found only 4";
    fails(&folder, &["run", "m", "moves"], 1, expected);
    fails(&folder, &["steps", "m", "moves", "0"], 1, expected);
}

#[test]
fn moves_may_have_comments() {
    let folder = with_k("comments");
    write_moves(
        &folder,
        "# spread, then inter twice\n\n2 0 0 0 0 # spread\n  # inter\n9 0 0 1 0\n9 0 0 1 0",
    );
    assert_eq!(printed(&folder, &["run", "m", "moves"]), "0\n0\n14\n");
}

#[test]
fn listing_of_an_estimate() {
    let folder = with_k("listing");
    let listing = printed(&folder, &["read-estimate", "m", "e"]);
    let lines: Vec<&str> = listing.lines().collect();
    assert_eq!(lines.len(), 6 + 2 * (2 + 6 + 6));
    assert_eq!(lines[2], "rho 2 {1,4}");
    assert_eq!(lines[6], "shown 0 {0}");
    assert_eq!(lines[8], "eps 0 0 {5}");
    assert_eq!(lines[14], "kap 0 0 {1}");
    let listing = printed(&folder, &["read", "m"]);
    assert!(listing.contains("site 1 0 3 0 {5}\nline 1 0 4 3 4 1 0 {}\nline 1 1 0 0 0 0 0 {}\n"));
}

/// All files below a folder with their bytes, by name.
fn contents(folder: &Path) -> Vec<(String, Vec<u8>)> {
    let mut files = Vec::new();
    for entry in fs::read_dir(folder).unwrap() {
        let path = entry.unwrap().path();
        let name = path.file_name().unwrap().to_str().unwrap().to_string();
        if path.is_dir() {
            let inner = contents(&path).into_iter();
            files.extend(inner.map(|(file, bytes)| (format!("{name}/{file}"), bytes)));
        } else {
            files.push((name, fs::read(&path).unwrap()));
        }
    }
    files.sort();
    files
}

#[test]
fn generated_cases_can_be_used() {
    let folder = fresh_folder("gen");
    let count = bm::cases::sort_count();
    let args = |seed, dir| ["gen", seed, "120", dir].map(str::to_string);
    for (seed, dir) in [("5", "one"), ("5", "two"), ("6", "three")] {
        let args = args(seed, dir);
        printed(&folder, &args.each_ref().map(String::as_str));
    }
    let (one, two) = (contents(&folder.join("one")), contents(&folder.join("two")));
    assert_eq!(one, two);
    assert_ne!(one, contents(&folder.join("three")));
    assert!(count <= 120, "{count} sorts");
    let index = fs::read_to_string(folder.join("one/index.txt")).unwrap();
    assert_eq!(index.lines().count(), 120);
    for line in index.lines() {
        let (name, sort) = line.split_once(' ').unwrap();
        let case = folder.join("one").join(name);
        let mut args = vec!["run", "model.blk", "moves.txt"];
        if case.join("state.bin").exists() {
            args.extend(["--from", "state.bin"]);
        }
        let said = printed(&case, &["check", "model.blk", "estimate.blk"]);
        let said = said + &printed(&case, &args);
        let number = sort.strip_prefix("refusal-").and_then(|rest| rest.split('-').next());
        if let Some(number) = number {
            let refused = said.lines().any(|line| {
                line == number
                    || line.starts_with(&format!("refused {number} "))
                    || line.starts_with(&format!("refused model {number} "))
                    || line.starts_with(&format!("refused estimate {number} "))
            });
            assert!(refused, "{name} {sort}: {said}");
        }
    }
}
