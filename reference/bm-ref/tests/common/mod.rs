//! Running the command line.

use std::path::{Path, PathBuf};
use std::process::{Command, Output};

/// Runs the command line in a folder.
pub fn output(folder: &Path, args: &[&str]) -> Output {
    let mut command = Command::new(env!("CARGO_BIN_EXE_bm-ref"));
    command.current_dir(folder).args(args).output().expect("bm-ref runs")
}

/// What the command line prints when it succeeds.
pub fn printed(folder: &Path, args: &[&str]) -> String {
    let output = output(folder, args);
    assert!(output.status.success(), "{args:?}: {}", String::from_utf8_lossy(&output.stderr));
    String::from_utf8(output.stdout).expect("text")
}

/// An empty folder for a test.
pub fn fresh_folder(name: &str) -> PathBuf {
    let folder = Path::new(env!("CARGO_TARGET_TMPDIR")).join(name);
    let _ = std::fs::remove_dir_all(&folder);
    std::fs::create_dir_all(&folder).expect("a folder");
    folder
}
