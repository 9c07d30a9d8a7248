//! The calls with their answers as one number.
//!
//! An answer is 64 bits: the tag in bits 0 to 7, the number of a clause or a
//! refusal in bits 8 to 15, the first place in bits 16 to 31, the second in
//! bits 32 to 47, the name that a broken clause misses in bits 48 to 55, and
//! zeros. [`tag`], [`number`], [`first`], [`second`] and [`name`] take it
//! apart. The calls of the crate's root answer the same with types.
//!
//! This is the one module with unsafe code. Nothing checks its declarations
//! against the proved source; the header `include/brothmaple.h` declares the
//! same calls, and the tests of both make every call.
//!
//! ```
//! use brothmaple::example::{ESTIMATE, MODEL};
//! use brothmaple::packed::{self, Tag};
//!
//! assert_eq!(packed::check(MODEL, ESTIMATE), 0);
//! let answer = packed::check(&MODEL[1..], ESTIMATE);
//! assert_eq!(packed::tag(answer), Tag::Model);
//! assert_eq!(packed::number(answer), 1);
//! ```

use crate::moves::Move;

// A slice is passed as a pointer, then how many elements it has.
unsafe extern "C" {
    fn bm_read_model(model: *const u8, model_len: usize) -> u64;
    fn bm_read_estimate(
        model: *const u8,
        model_len: usize,
        estimate: *const u8,
        estimate_len: usize,
    ) -> u64;
    fn bm_check(
        model: *const u8,
        model_len: usize,
        estimate: *const u8,
        estimate_len: usize,
    ) -> u64;
    fn bm_shut_off(
        model: *const u8,
        model_len: usize,
        estimate: *const u8,
        estimate_len: usize,
        box_no: u32,
    ) -> u64;
    fn bm_refused_block(
        model: *const u8,
        model_len: usize,
        estimate: *const u8,
        estimate_len: usize,
    ) -> u64;
    fn bm_copy_refused_block(
        model: *const u8,
        model_len: usize,
        estimate: *const u8,
        estimate_len: usize,
        out: *mut u8,
        out_len: usize,
    ) -> u64;
    fn bm_start(model: *const u8, model_len: usize, state: *mut u32, state_len: usize) -> u64;
    fn bm_step(
        model: *const u8,
        model_len: usize,
        state: *mut u32,
        state_len: usize,
        kind: u32,
        box_no: u32,
        thread: u32,
        second_box: u32,
        second_thread: u32,
    ) -> u64;
    fn bm_run(
        model: *const u8,
        model_len: usize,
        state: *mut u32,
        state_len: usize,
        moves: *const Move,
        moves_len: usize,
        answers: *mut u8,
        answers_len: usize,
    ) -> u64;
}

/// Which sort of answer it is.
#[derive(Clone, Copy, PartialEq, Eq, Hash, Debug)]
#[repr(u8)]
pub enum Tag {
    /// Nothing is refused, nothing is broken; of [`copy_refused_block`], bytes
    /// are copied, or there are none to copy.
    None = 0,
    /// The estimate breaks a clause: its number, box, record and the name that
    /// is missing.
    Clause = 1,
    /// The model is refused; of [`refused_block`], a part of the model.
    Model = 2,
    /// The estimate is refused; of [`refused_block`], a part of the estimate.
    Estimate = 3,
    /// The box is shut off.
    Yes = 4,
    /// The box is not shut off.
    No = 5,
    /// The call is refused with 10 to 20, or the model has no such box (12).
    Call = 6,
    /// The lent buffer is too short for the block.
    NoRoom = 7,
}

/// The tag of an answer.
///
/// # Panics
///
/// For a tag that is none of the eight. No call answers one: the contracts
/// say so for every input, and are proved.
pub fn tag(answer: u64) -> Tag {
    match answer & 0xff {
        0 => Tag::None,
        1 => Tag::Clause,
        2 => Tag::Model,
        3 => Tag::Estimate,
        4 => Tag::Yes,
        5 => Tag::No,
        6 => Tag::Call,
        7 => Tag::NoRoom,
        _ => panic!("{answer:#x} has no tag of an answer: the proved contracts exclude it"),
    }
}

/// The number of the broken clause, or of the refusal.
pub const fn number(answer: u64) -> u8 {
    (answer >> 8) as u8
}

/// The first place.
pub const fn first(answer: u64) -> u16 {
    (answer >> 16) as u16
}

/// The second place.
pub const fn second(answer: u64) -> u16 {
    (answer >> 32) as u16
}

/// The name that is missing, of a broken clause; 0 of any other answer.
pub const fn name(answer: u64) -> u8 {
    (answer >> 48) as u8
}

// Why each call below is sound: a slice is a pointer that is not null, is
// aligned, and is valid for its length; one that is lent with `&mut` overlaps
// no other. By their contracts, which are proved for every input, the calls
// read and write within those slices alone, and keep no pointer.

/// [`crate::read_model`] as one number.
pub fn read_model(model: &[u8]) -> u64 {
    // SAFETY: the slice is valid for its length, and is only read.
    unsafe { bm_read_model(model.as_ptr(), model.len()) }
}

/// [`crate::read_estimate`] as one number.
pub fn read_estimate(model: &[u8], estimate: &[u8]) -> u64 {
    // SAFETY: both slices are valid for their lengths, and are only read.
    unsafe { bm_read_estimate(model.as_ptr(), model.len(), estimate.as_ptr(), estimate.len()) }
}

/// [`crate::check`] as one number.
pub fn check(model: &[u8], estimate: &[u8]) -> u64 {
    // SAFETY: both slices are valid for their lengths, and are only read.
    unsafe { bm_check(model.as_ptr(), model.len(), estimate.as_ptr(), estimate.len()) }
}

/// [`crate::shut_off`] as one number.
pub fn shut_off(model: &[u8], estimate: &[u8], box_no: u32) -> u64 {
    // SAFETY: both slices are valid for their lengths, and are only read.
    unsafe { bm_shut_off(model.as_ptr(), model.len(), estimate.as_ptr(), estimate.len(), box_no) }
}

/// [`crate::refused_block`] as one number: the tag is the image, the first
/// place the block, the second how many bytes it has, 512 or 0.
pub fn refused_block(model: &[u8], estimate: &[u8]) -> u64 {
    // SAFETY: both slices are valid for their lengths, and are only read.
    unsafe { bm_refused_block(model.as_ptr(), model.len(), estimate.as_ptr(), estimate.len()) }
}

/// [`crate::copy_refused_block`] as one number: the first place is how many
/// bytes were copied, 512 or 0.
pub fn copy_refused_block(model: &[u8], estimate: &[u8], out: &mut [u8]) -> u64 {
    let (bytes, room) = (out.as_mut_ptr(), out.len());
    // SAFETY: all slices are valid for their lengths; `out`, the one that is
    // written, is lent to this call alone.
    unsafe {
        bm_copy_refused_block(
            model.as_ptr(),
            model.len(),
            estimate.as_ptr(),
            estimate.len(),
            bytes,
            room,
        )
    }
}

/// [`crate::start`] as one number.
pub fn start(model: &[u8], state: &mut [u32]) -> u64 {
    // SAFETY: both slices are valid for their lengths; `state`, the one that
    // is written, is lent to this call alone.
    unsafe { bm_start(model.as_ptr(), model.len(), state.as_mut_ptr(), state.len()) }
}

/// [`crate::step`] as one number.
pub fn step(model: &[u8], state: &mut [u32], step: Move) -> u64 {
    let (words, count) = (state.as_mut_ptr(), state.len());
    let Move { kind, box_no, thread, second_box, second_thread } = step;
    // SAFETY: both slices are valid for their lengths; `state`, the one that
    // is written, is lent to this call alone.
    unsafe {
        bm_step(
            model.as_ptr(),
            model.len(),
            words,
            count,
            kind,
            box_no,
            thread,
            second_box,
            second_thread,
        )
    }
}

/// [`crate::run`] as one number.
pub fn run(model: &[u8], state: &mut [u32], moves: &[Move], answers: &mut [u8]) -> u64 {
    let (words, count) = (state.as_mut_ptr(), state.len());
    let (bytes, room) = (answers.as_mut_ptr(), answers.len());
    // SAFETY: all slices are valid for their lengths; `state` and `answers`,
    // which are written, are lent to this call alone. A `Move` has the layout
    // that the call reads: five words of 32 bits in order, by `repr(C)`.
    unsafe {
        bm_run(model.as_ptr(), model.len(), words, count, moves.as_ptr(), moves.len(), bytes, room)
    }
}
