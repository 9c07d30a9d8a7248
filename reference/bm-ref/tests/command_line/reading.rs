//! Files that are missing, cannot be read or are too long.

use std::fs;

use bm::cases::random::{self, Size};
use bm::cases::rng::Rng;
use bm::estimate::BoxSets;
use bm::{Estimate, Model};

use crate::common::{fresh_folder, printed};
use crate::{K, fails, with_k, write_moves};

/// The most bytes of a text.
const MAX_TEXT: usize = 4_194_304;

/// Commands that name a file which is not there.
const MISSING: &[&[&str]] = &[
    &["check", "none", "e"],
    &["check", "m", "none"],
    &["check", "e", "none"],
    &["shut-off", "m", "none", "0"],
    &["refused-block", "none", "e"],
    &["read", "none"],
    &["read-estimate", "m", "none"],
    &["read-estimate", "e", "none"],
    &["run", "none", "moves"],
    &["run", "m", "none"],
    &["run", "m", "moves", "--from", "none"],
    &["run", "e", "moves", "--from", "none"],
    &["run", "m", "none", "--missing-as-empty"],
    &["steps", "none", "moves", "0"],
    &["least", "none", "e2"],
    &["dis", "none"],
    &["dis", "m", "none"],
    &["dis", "e", "none"],
    &["asm", "none", "m2"],
];

#[cfg(unix)]
#[test]
fn missing_files_are_errors() {
    let folder = with_k("missing-files");
    write_moves(&folder, "2 0 0 0 0\n");
    for args in MISSING {
        fails(&folder, args, 2, "none: No such file or directory (os error 2)");
    }
    assert!(!folder.join("e2").exists() && !folder.join("m2").exists());
}

#[test]
fn missing_images_can_count_as_empty() {
    let folder = with_k("as-empty");
    write_moves(&folder, "2 0 0 0 0\n");
    for (args, answer) in [
        (&["check", "none", "e"][..], "refused model 1 0 0\n"),
        (&["check", "m", "none"], "refused estimate 1 0 0\n"),
        (&["check", "m", "e"], "accepted\n"),
        (&["shut-off", "m", "none", "0"], "refused estimate 1 0 0\n"),
        (&["refused-block", "none", "none"], "model 0 0\n"),
        (&["read", "none"], "refused model 1 0 0\n"),
        (&["read-estimate", "m", "none"], "refused estimate 1 0 0\n"),
        (&["run", "none", "moves"], "refused model 1 0 0\n"),
    ] {
        assert_eq!(printed(&folder, &[args, &["--missing-as-empty"]].concat()), answer);
    }
}

#[cfg(unix)]
#[test]
fn files_that_cannot_be_read_or_written() {
    let folder = with_k("unreadable");
    let folder_told = ".: Is a directory (os error 21)";
    for args in [
        &["check", ".", "e"][..],
        &["check", "m", ".", "--missing-as-empty"],
        &["asm", ".", "m2"],
        &["asm", "k.txt", "."],
        &["least", "m", "."],
    ] {
        fails(&folder, args, 2, folder_told);
    }
    fails(&folder, &["gen", "1", "1", "m"], 2, "m/case-000000: Not a directory (os error 20)");
}

/// Images past the longest model get the answer that their length gets.
#[test]
fn long_images_are_refused() {
    let folder = with_k("long");
    write_moves(&folder, "2 0 0 0 0\n");
    for name in ["m", "e"] {
        let mut bytes = fs::read(folder.join(name)).unwrap();
        for len in [20_993, 21_504, 40_960, 1 << 20] {
            bytes.resize(len, 0);
            fs::write(folder.join("long"), &bytes).unwrap();
            assert_eq!(printed(&folder, &["check", "long", "e"]), "refused model 1 0 0\n");
            assert_eq!(printed(&folder, &["check", "m", "long"]), "refused estimate 1 0 0\n");
            assert_eq!(printed(&folder, &["refused-block", "m", "long"]), "model 0 0\n");
            assert_eq!(printed(&folder, &["run", "long", "moves"]), "refused model 1 0 0\n");
        }
    }
    fails(&folder, &["least", "long", "e2"], 1, "long: refused model 1 0 0");
    fails(&folder, &["dis", "m", "long"], 1, "long: refused estimate 1 0 0");
}

/// A model of 20,992 bytes, the longest, is read whole.
#[test]
fn longest_images_and_texts() {
    let folder = fresh_folder("longest");
    let image = random::draft(&mut Rng::new(3), Size::LARGEST).image();
    assert_eq!(image.len(), 20_992);
    let model = Model::read(&image).unwrap();
    let all = [model.listed(); 60];
    let sets = BoxSets { shown: all[0], hidden: all[0], eps: all, kap: all };
    let estimate = Estimate { rho: all, boxes: [sets; 8] }.image(8);
    fs::write(folder.join("m"), &image).unwrap();
    fs::write(folder.join("e"), &estimate).unwrap();
    assert_eq!(printed(&folder, &["check", "m", "e"]), "accepted\n");
    let text = printed(&folder, &["dis", "m", "e"]);
    assert!((300_000..MAX_TEXT / 4).contains(&text.len()), "{} bytes", text.len());
    fs::write(folder.join("text"), text).unwrap();
    printed(&folder, &["asm", "text", "m2", "e2"]);
    assert_eq!(fs::read(folder.join("m2")).unwrap(), image);
    assert_eq!(fs::read(folder.join("e2")).unwrap(), estimate);
}

#[test]
fn long_texts_are_refused() {
    let folder = with_k("long-text");
    let mut text = K.as_bytes().to_vec();
    text.resize(MAX_TEXT, b'\n');
    fs::write(folder.join("text"), &text).unwrap();
    printed(&folder, &["asm", "text", "m2"]);
    assert_eq!(fs::read(folder.join("m")).unwrap(), fs::read(folder.join("m2")).unwrap());
    text.push(b'\n');
    fs::write(folder.join("text"), &text).unwrap();
    fails(&folder, &["asm", "text", "m3"], 1, "text: longer than 4194304 bytes");
    fails(&folder, &["run", "m", "text"], 1, "text: longer than 4194304 bytes");
}

#[cfg(target_os = "linux")]
#[test]
fn files_without_end_are_not_read_to_the_end() {
    let folder = with_k("endless");
    let endless = "/dev/zero";
    write_moves(&folder, "2 0 0 0 0\n");
    assert_eq!(printed(&folder, &["check", endless, endless]), "refused model 1 0 0\n");
    assert_eq!(printed(&folder, &["check", "m", endless]), "refused estimate 1 0 0\n");
    assert_eq!(printed(&folder, &["run", "m", "moves", "--from", endless]), "refused 10 0 0\n");
    fails(&folder, &["asm", endless, "m2"], 1, "/dev/zero: longer than 4194304 bytes");
    fails(&folder, &["run", "m", endless], 1, "/dev/zero: longer than 4194304 bytes");
}

#[cfg(target_os = "linux")]
#[test]
fn answers_that_cannot_be_written_are_errors() {
    let full = fs::OpenOptions::new().write(true).open("/dev/full").unwrap();
    let mut command = std::process::Command::new(env!("CARGO_BIN_EXE_bm-ref"));
    let output = command.arg("help").stdout(full).output().unwrap();
    assert_eq!(output.status.code(), Some(2));
    let told = String::from_utf8(output.stderr).unwrap();
    assert_eq!(told, "bm-ref: standard output: No space left on device (os error 28)\n");
}

#[test]
fn texts_that_are_not_utf8() {
    let folder = with_k("bytes");
    fs::write(folder.join("text"), b"free x\n  \xe9 z\n").unwrap();
    let line = "text: line 2, column 3: expected UTF-8 text, found the byte 0xe9";
    fails(&folder, &["asm", "text", "m2"], 1, line);
}
