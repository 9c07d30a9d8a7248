//! The examples: texts and images agree, and the expected lines come out.

mod common;

use std::fs;
use std::path::{Path, PathBuf};

use common::{fresh_folder, printed};

fn examples() -> PathBuf {
    Path::new(env!("CARGO_MANIFEST_DIR")).join("../../examples")
}

/// The folders that hold a model.
fn folders() -> Vec<PathBuf> {
    let mut folders = Vec::new();
    for group in ["hide", "k", "virus"] {
        for entry in fs::read_dir(examples().join(group)).unwrap() {
            folders.push(entry.unwrap().path());
        }
    }
    folders.sort();
    assert_eq!(folders.len(), 9);
    folders
}

fn read(path: &Path) -> String {
    fs::read_to_string(path).unwrap()
}

#[test]
fn texts_give_the_images() {
    let out = fresh_folder("examples");
    for folder in folders() {
        let text = folder.join("model.txt");
        printed(&out, &["asm", text.to_str().unwrap(), "m", "e"]);
        assert_eq!(fs::read(out.join("m")).unwrap(), fs::read(folder.join("model.blk")).unwrap());
        assert_eq!(
            fs::read(out.join("e")).unwrap(),
            fs::read(folder.join("estimate.blk")).unwrap()
        );
    }
}

#[test]
fn expected_lines() {
    for folder in folders() {
        let line = printed(&folder, &["check", "model.blk", "estimate.blk"]);
        assert_eq!(line, read(&folder.join("expected.txt")), "{folder:?}");
    }
}

#[test]
fn expected_answers() {
    let mut lists = 0;
    for folder in folders() {
        for name in ["intra", "inter", "refused", "attack", "hide"] {
            let moves = format!("{name}.moves.txt");
            if folder.join(&moves).exists() {
                let answers = printed(&folder, &["run", "model.blk", &moves]);
                assert_eq!(answers, read(&folder.join(format!("{name}.answers.txt"))));
                lists += 1;
            }
        }
    }
    assert_eq!(lists, 6);
}

#[test]
fn virus_estimates_are_least() {
    let out = fresh_folder("virus");
    for (name, answer) in [("recognised", "no\n"), ("unrecognised", "yes\n")] {
        let folder = examples().join("virus").join(name);
        let model = folder.join("model.blk");
        printed(&out, &["least", model.to_str().unwrap(), "e"]);
        let given = fs::read(folder.join("estimate.blk")).unwrap();
        assert_eq!(fs::read(out.join("e")).unwrap(), given);
        let said = printed(&folder, &["shut-off", "model.blk", "estimate.blk", "1"]);
        assert_eq!(said, answer);
        assert_eq!(said, read(&folder.join("shut-off-1.txt")));
    }
}

/// A box has a line to hide another box's site: the estimate that is given is
/// the least one, and the one that breaks clause 8 is for the same model.
#[test]
fn hide_estimates_are_for_one_model() {
    let out = fresh_folder("hide");
    let hide = examples().join("hide");
    let read = |path: &str| fs::read(hide.join(path)).unwrap();
    let model = hide.join("of-another-box/model.blk");
    printed(&out, &["least", model.to_str().unwrap(), "e"]);
    assert_eq!(fs::read(out.join("e")).unwrap(), read("of-another-box/estimate.blk"));
    assert_eq!(read("clause-8-1-4/model.blk"), read("of-another-box/model.blk"));
}

/// The example in the description of the text form is K with E.
#[test]
fn described_example_is_k() {
    let described = read(&examples().join("../docs/TEXT_FORM.md"));
    let (_, from) = described.split_once("## An example").unwrap();
    let (part, _) = from.split_once("`examples/`").unwrap();
    let out = fresh_folder("described");
    fs::write(out.join("text"), part).unwrap();
    printed(&out, &["asm", "text", "m", "e"]);
    let k = examples().join("k/accepted");
    assert_eq!(fs::read(out.join("m")).unwrap(), fs::read(k.join("model.blk")).unwrap());
    assert_eq!(fs::read(out.join("e")).unwrap(), fs::read(k.join("estimate.blk")).unwrap());
}
