//! Wrong arguments, and the help.

use crate::common::{fresh_folder, output, printed};
use crate::{fails, with_k, write_moves};

/// Arguments and the line that names what is wrong.
const WRONG: &[(&[&str], &str)] = &[
    (&[], "a command is missing; see 'bm-ref help'"),
    (&["chekc", "m", "e"], "unknown command 'chekc'; see 'bm-ref help'"),
    (&["help", "chekc"], "unknown command 'chekc'; see 'bm-ref help'"),
    (&["help", "check", "m"], "unexpected argument 'm'; see 'bm-ref help'"),
    (&["check"], "check: argument MODEL is missing; see 'bm-ref check --help'"),
    (&["check", "m"], "check: argument ESTIMATE is missing; see 'bm-ref check --help'"),
    (&["check", "m", "e", "x"], "check: unexpected argument 'x'; see 'bm-ref check --help'"),
    (
        &["check", "m", "e", "--mising"],
        "check: unknown option '--mising'; see 'bm-ref check --help'",
    ),
    (
        &["dis", "m", "--missing-as-empty"],
        "dis: unknown option '--missing-as-empty'; see 'bm-ref dis --help'",
    ),
    (&["asm", "k.txt", "m", "e", "x"], "asm: unexpected argument 'x'; see 'bm-ref asm --help'"),
    (
        &["run", "m", "moves", "--state"],
        "run: option '--state' has no file after it; see 'bm-ref run --help'",
    ),
    (
        &["run", "--from", "a", "--from", "b"],
        "run: option '--from' comes twice; see 'bm-ref run --help'",
    ),
    (
        &["shut-off", "m", "e", "x"],
        "shut-off: BOX is 'x', not a number from 0 to 4294967295; see 'bm-ref shut-off --help'",
    ),
    (
        &["shut-off", "m", "e", "4294967296"],
        "shut-off: BOX is '4294967296', not a number from 0 to 4294967295; see 'bm-ref shut-off --help'",
    ),
    (
        &["steps", "m", "moves", "+1"],
        "steps: STAMP is '+1', not a number from 0 to 4294967295; see 'bm-ref steps --help'",
    ),
    (
        &["gen", "1", "-1", "cases"],
        "gen: COUNT is '-1', not a number from 0 to 18446744073709551615; see 'bm-ref gen --help'",
    ),
];

#[test]
fn wrong_arguments_are_named() {
    let folder = with_k("wrong");
    for (args, line) in WRONG {
        fails(&folder, args, 2, line);
    }
}

#[cfg(unix)]
#[test]
fn arguments_are_text() {
    use std::os::unix::ffi::OsStrExt;
    let mut command = std::process::Command::new(env!("CARGO_BIN_EXE_bm-ref"));
    let output = command.arg(std::ffi::OsStr::from_bytes(b"\xff")).output().unwrap();
    let told = String::from_utf8(output.stderr).unwrap();
    assert_eq!(told, "bm-ref: argument \"\\xFF\" is not UTF-8; see 'bm-ref help'\n");
    assert_eq!(output.status.code(), Some(2));
}

/// The names of the commands that the help lists.
fn names(help: &str) -> Vec<&str> {
    let usages = help.lines().filter_map(|line| line.strip_prefix("bm-ref "));
    let names = usages.map(|usage| usage.split(' ').next().unwrap());
    names.filter(|name| *name != "COMMAND").collect()
}

#[test]
fn help_lists_the_commands_and_the_statuses() {
    let folder = fresh_folder("help");
    let help = printed(&folder, &["help"]);
    assert_eq!(names(&help).len(), 11);
    for status in ["Status 0: ", "Status 1: ", "Status 2: "] {
        assert!(help.contains(status), "{status}");
    }
    for args in [&["--help"][..], &["-h"], &["help", "--help"]] {
        assert_eq!(printed(&folder, args), help);
    }
}

#[test]
fn help_of_a_command() {
    let folder = fresh_folder("command-help");
    let expected = "\
bm-ref check MODEL ESTIMATE [--missing-as-empty]
    prints the checking program's line: accepted, the broken clause, or the refusal

    MODEL               reads a model's image
    ESTIMATE            reads an estimate's image
    --missing-as-empty  an image's file that does not exist counts as empty

Example:
    bm-ref check model.blk estimate.blk
";
    for args in [&["check", "--help"][..], &["check", "m", "x", "--y", "-h"], &["help", "check"]] {
        assert_eq!(printed(&folder, args), expected);
    }
}

/// Each command's example can be given as it stands.
#[test]
fn examples_of_the_help_work() {
    let folder = with_k("help-examples");
    write_moves(&folder, "2 0 0 0 0\n");
    let names_of = [("m", "model.blk"), ("e", "estimate.blk"), ("moves", "moves.txt")];
    for (from, to) in names_of {
        std::fs::rename(folder.join(from), folder.join(to)).unwrap();
    }
    let text = printed(&folder, &["dis", "model.blk", "estimate.blk"]);
    std::fs::write(folder.join("model.txt"), text).unwrap();
    let help = printed(&folder, &["help"]);
    for name in names(&help) {
        let help = printed(&folder, &[name, "--help"]);
        let (_, example) = help.split_once("Example:\n    bm-ref ").unwrap();
        let args: Vec<&str> = example.split_whitespace().collect();
        assert_eq!(args[0], name);
        let output = output(&folder, &args);
        assert!(output.status.success() && output.stderr.is_empty(), "{example}");
    }
    for file in ["least.blk", "state.bin", "cases/index.txt"] {
        assert!(folder.join(file).exists(), "{file}");
    }
}
