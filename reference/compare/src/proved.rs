//! The proved library's calls, their answers packed: those of `brothmaple::packed`, and the block check, which nobody but the
//! comparison and the benchmark calls.

pub use brothmaple::packed::{
    check, copy_refused_block, read_estimate, read_model, refused_block, run, shut_off, start,
};

use bm::Move;

unsafe extern "C" {
    fn bm_block_check(image: *const u8, len: usize, k: usize) -> u64;
}

/// The check that block `k` ought to hold.
pub fn block_check(image: &[u8], k: usize) -> u64 {
    // SAFETY: the slice is valid for its length, and is only read.
    unsafe { bm_block_check(image.as_ptr(), image.len(), k) }
}

/// A move as the proved library takes it.
fn taken(mv: Move) -> brothmaple::Move {
    let Move { kind, box_no, thread, second_box, second_thread } = mv;
    brothmaple::Move { kind, box_no, thread, second_box, second_thread }
}

/// A list of moves as the proved library takes it.
pub fn list(moves: &[Move]) -> Vec<brothmaple::Move> {
    moves.iter().copied().map(taken).collect()
}

/// A move on the lent words: the answer, packed.
pub fn step(model: &[u8], words: &mut [u32], mv: Move) -> u64 {
    brothmaple::packed::step(model, words, taken(mv))
}
