//! Files: images, texts, moves and words.

use std::fs::{self, File};
use std::io::{self, ErrorKind, Read};

use bm::Move;
use bm::model::MAX_MODEL;
use bm::state::STATE_WORDS;
use bm::text::TextError;

use crate::failure::Failure;

/// The most bytes of a text or of a list of moves. The longest text that
/// `dis` prints is shorter than a quarter of it.
const MAX_TEXT: usize = 4 << 20;

fn unusable(path: &str, error: io::Error) -> Failure {
    Failure::File(format!("{path}: {error}"))
}

/// The error of a text, with its file.
pub fn text_error(path: &str, error: TextError) -> Failure {
    Failure::Content(format!("{path}: {error}"))
}

/// The first bytes of a file, at most so many.
fn first_bytes(path: &str, most: usize) -> io::Result<Vec<u8>> {
    let mut bytes = Vec::new();
    File::open(path)?.take(most as u64).read_to_end(&mut bytes)?;
    Ok(bytes)
}

/// The bytes of an image. One byte more than the longest model is enough: no
/// image has that length, and each longer one is refused as it is.
pub fn image(path: &str, missing_as_empty: bool) -> Result<Vec<u8>, Failure> {
    match first_bytes(path, MAX_MODEL + 1) {
        Err(error) if missing_as_empty && error.kind() == ErrorKind::NotFound => Ok(Vec::new()),
        read => read.map_err(|error| unusable(path, error)),
    }
}

/// The text of a file.
pub fn text(path: &str) -> Result<String, Failure> {
    let bytes = first_bytes(path, MAX_TEXT + 1).map_err(|error| unusable(path, error))?;
    if bytes.len() > MAX_TEXT {
        return Err(Failure::Content(format!("{path}: longer than {MAX_TEXT} bytes")));
    }
    let text = bm::text::utf8(&bytes).map_err(|error| text_error(path, error))?;
    Ok(text.to_string())
}

/// Writes a file.
pub fn write(path: &str, bytes: &[u8]) -> Result<(), Failure> {
    fs::write(path, bytes).map_err(|error| unusable(path, error))
}

/// The moves of a file.
pub fn moves(path: &str) -> Result<Vec<Move>, Failure> {
    bm::text::moves(&text(path)?).map_err(|error| text_error(path, error))
}

/// The text of moves, five numbers a line.
pub fn moves_text(moves: &[Move]) -> String {
    let line = |mv: &Move| {
        let [kind, box_no, thread, second_box, second_thread] = mv.numbers();
        format!("{kind} {box_no} {thread} {second_box} {second_thread}\n")
    };
    moves.iter().map(line).collect()
}

/// Makes a folder, and those above it.
pub fn folder(path: &str) -> Result<(), Failure> {
    fs::create_dir_all(path).map_err(|error| unusable(path, error))
}

/// The words of a file, 32 bits each, little-endian. Bytes after the last
/// whole word make one word more, so that the length is wrong. One byte more
/// than a state has is enough.
pub fn words(path: &str) -> Result<Vec<u32>, Failure> {
    let bytes = first_bytes(path, 4 * STATE_WORDS + 1).map_err(|error| unusable(path, error))?;
    let (words, rest) = bytes.as_chunks::<4>();
    let mut words: Vec<u32> = words.iter().map(|word| u32::from_le_bytes(*word)).collect();
    if !rest.is_empty() {
        words.resize(STATE_WORDS + 1, 0);
    }
    Ok(words)
}

/// The bytes of words.
pub fn word_bytes(words: &[u32]) -> Vec<u8> {
    words.iter().flat_map(|word| word.to_le_bytes()).collect()
}
