//! The calls of the proved library, safe and with types.
//!
//! A model and an estimate are images of 512-byte blocks, a state is 9,112
//! words. The calls take slices of any bytes, words and moves whatever, of any
//! length: what they answer and write is proved for every input (the contracts
//! of `crates/capi`). They allocate nothing, copy no image and keep nothing, so
//! they may be made from many threads at once.
//!
//! ```
//! use brothmaple::example::{BROKEN, ESTIMATE, MODEL};
//! use brothmaple::state::{NameNo, new_state, record};
//! use brothmaple::{Cause, Move, MoveKind, ShutOff, Verdict};
//!
//! // The estimate is accepted; without z in rho(y) it breaks clause 5.
//! assert_eq!(brothmaple::check(MODEL, ESTIMATE), Verdict::Accepted);
//! assert_eq!(brothmaple::check(MODEL, BROKEN).to_string(), "clause 5 0 1 1");
//! // Boxes 0 and 1 share a type name.
//! assert_eq!(brothmaple::shut_off(MODEL, ESTIMATE, 0), ShutOff::No);
//!
//! // Box 0 spreads, and its first thread receives from box 1: y is v.
//! let mut state = new_state();
//! brothmaple::start(MODEL, &mut state)?;
//! let inter = Move::inter(0, 0, 1, 0);
//! let moves = [Move::inside(MoveKind::Spread, 0, 0), inter, inter];
//! let mut answers = [0; 3];
//! let answers = brothmaple::run(MODEL, &mut state, &moves, &mut answers)?;
//! assert!(answers.iter().eq([Ok(()), Ok(()), Err(Cause::WrongLine)]));
//! let thread = record(&state, 0).unwrap().threads().next().unwrap();
//! assert_eq!(thread.binding(NameNo(2)).unwrap().name(), NameNo(4));
//! # Ok::<(), brothmaple::Refusal>(())
//! ```

#![deny(missing_docs)]
#![deny(unsafe_code)]

mod answers;
pub mod example;
mod moves;
#[allow(unsafe_code)]
pub mod packed;
mod refusal;
pub mod state;

pub use answers::{Answers, Broken, NoRoom, RefusedBlock, ShutOff, Verdict};
pub use moves::{Move, MoveKind};
pub use refusal::{Cause, Image, Refusal, RefusedImage};
pub use state::new_state;

use answers::{excluded, of_call, verdict};
use packed::Tag;

/// Reads a model: its first refusal, 1 to 9, if there is one.
///
/// ```
/// use brothmaple::example::MODEL;
/// use brothmaple::{Cause, Refusal};
///
/// assert_eq!(brothmaple::read_model(MODEL), Ok(()));
/// let mut damaged = MODEL.to_vec();
/// damaged[600] ^= 1;
/// let refusal = Refusal { cause: Cause::Check, first: 1, second: 0 };
/// assert_eq!(brothmaple::read_model(&damaged), Err(refusal));
/// ```
pub fn read_model(model: &[u8]) -> Result<(), Refusal> {
    of_call("bm_read_model", packed::read_model(model))
}

/// Reads a model, then an estimate for it: the first refusal, if there is one.
/// No clause is tried.
///
/// ```
/// use brothmaple::example::{BROKEN, MODEL};
/// use brothmaple::{Cause, Image};
///
/// assert_eq!(brothmaple::read_estimate(MODEL, BROKEN), Ok(()));
/// let refused = brothmaple::read_estimate(MODEL, &BROKEN[..512]).unwrap_err();
/// assert_eq!((refused.image, refused.refusal.cause), (Image::Estimate, Cause::Length));
/// ```
pub fn read_estimate(model: &[u8], estimate: &[u8]) -> Result<(), RefusedImage> {
    let answer = packed::read_estimate(model, estimate);
    match verdict("bm_read_estimate", answer) {
        Verdict::Accepted => Ok(()),
        Verdict::Refused(refused) => Err(refused),
        Verdict::Broken(_) => excluded("bm_read_estimate", answer),
    }
}

/// Checks whether an estimate covers all that a model can do.
///
/// ```
/// use brothmaple::example::{BROKEN, ESTIMATE, MODEL};
/// use brothmaple::{Broken, Verdict};
///
/// assert_eq!(brothmaple::check(MODEL, ESTIMATE), Verdict::Accepted);
/// let broken = Broken { clause: 5, box_no: 0, record: 1, missing: 1 };
/// assert_eq!(brothmaple::check(MODEL, BROKEN), Verdict::Broken(broken));
/// assert_eq!(brothmaple::check(b"", ESTIMATE).to_string(), "refused model 1 0 0");
/// ```
pub fn check(model: &[u8], estimate: &[u8]) -> Verdict {
    verdict("bm_check", packed::check(model, estimate))
}

/// Asks whether a box is shut off from the others.
///
/// ```
/// use brothmaple::ShutOff;
/// use brothmaple::example::{BROKEN, ESTIMATE, MODEL};
///
/// assert_eq!(brothmaple::shut_off(MODEL, ESTIMATE, 1), ShutOff::No);
/// assert_eq!(brothmaple::shut_off(MODEL, ESTIMATE, 2), ShutOff::NoBox);
/// let not_accepted = ShutOff::NotAccepted(brothmaple::check(MODEL, BROKEN));
/// assert_eq!(brothmaple::shut_off(MODEL, BROKEN, 1), not_accepted);
/// ```
pub fn shut_off(model: &[u8], estimate: &[u8], box_no: u32) -> ShutOff {
    let answer = packed::shut_off(model, estimate, box_no);
    match packed::tag(answer) {
        Tag::Yes => ShutOff::Yes,
        Tag::No => ShutOff::No,
        Tag::Call => ShutOff::NoBox,
        Tag::None => excluded("bm_shut_off", answer),
        _ => ShutOff::NotAccepted(verdict("bm_shut_off", answer)),
    }
}

/// The refused block as a part of the image that it stands in, where [`check`]
/// refuses one with 2 to 5; else none. The block is lent for as long as both
/// images are.
///
/// ```
/// use brothmaple::example::{ESTIMATE, MODEL};
/// use brothmaple::{Cause, Image};
///
/// assert_eq!(brothmaple::refused_block(MODEL, ESTIMATE), None);
/// let mut damaged = ESTIMATE.to_vec();
/// damaged[700] ^= 1;
/// let refused = brothmaple::refused_block(MODEL, &damaged).unwrap();
/// assert_eq!((refused.image, refused.cause, refused.block), (Image::Estimate, Cause::Check, 1));
/// assert_eq!(refused.bytes.as_ptr(), damaged[512..].as_ptr());
/// ```
///
/// It does not outlive either image:
///
/// ```compile_fail,E0505
/// use brothmaple::example::MODEL;
///
/// let estimate = vec![0; 512 * 5];
/// let refused = brothmaple::refused_block(MODEL, &estimate);
/// drop(estimate);
/// assert!(refused.is_some());
/// ```
pub fn refused_block<'m: 'r, 'e: 'r, 'r>(
    model: &'m [u8],
    estimate: &'e [u8],
) -> Option<RefusedBlock<'r>> {
    let answer = packed::refused_block(model, estimate);
    let (image, bytes): (Image, &'r [u8]) = match packed::tag(answer) {
        Tag::Model => (Image::Model, model),
        Tag::Estimate => (Image::Estimate, estimate),
        _ => excluded("bm_refused_block", answer),
    };
    answers::refused_block(image, bytes, answer)
}

/// Copies the refused block to the front of a lent buffer: how many bytes were
/// copied, 512, or 0 where there is no such block.
///
/// ```
/// use brothmaple::NoRoom;
/// use brothmaple::example::{ESTIMATE, MODEL};
///
/// let mut damaged = ESTIMATE.to_vec();
/// damaged[700] ^= 1;
/// let mut out = [0; 600];
/// assert_eq!(brothmaple::copy_refused_block(MODEL, &damaged, &mut out), Ok(512));
/// assert_eq!(out[..512], damaged[512..1024]);
/// assert_eq!(out[512..], [0; 88]);
/// assert_eq!(brothmaple::copy_refused_block(MODEL, &damaged, &mut out[..511]), Err(NoRoom));
/// assert_eq!(brothmaple::copy_refused_block(MODEL, ESTIMATE, &mut []), Ok(0));
/// ```
pub fn copy_refused_block(model: &[u8], estimate: &[u8], out: &mut [u8]) -> Result<usize, NoRoom> {
    let answer = packed::copy_refused_block(model, estimate, out);
    match packed::tag(answer) {
        Tag::None => Ok(usize::from(packed::first(answer))),
        Tag::NoRoom => Err(NoRoom),
        _ => excluded("bm_copy_refused_block", answer),
    }
}

/// Starts a model: writes its first state into 9,112 lent words. Where it is
/// refused, for the model or with [`Cause::Room`], they stay as they were.
///
/// ```
/// use brothmaple::Cause;
/// use brothmaple::example::MODEL;
/// use brothmaple::state::{STATE_WORDS, record};
///
/// let mut state = [7; STATE_WORDS];
/// brothmaple::start(MODEL, &mut state)?;
/// assert_eq!(record(&state, 1).unwrap().threads().count(), 1);
/// assert_eq!(record(&state, 2).unwrap().threads().count(), 0);
/// let refusal = brothmaple::start(MODEL, &mut state[1..]).unwrap_err();
/// assert_eq!(refusal.cause, Cause::Room);
/// # Ok::<(), brothmaple::Refusal>(())
/// ```
pub fn start(model: &[u8], state: &mut [u32]) -> Result<(), Refusal> {
    of_call("bm_start", packed::start(model, state))
}

/// Makes one move in a state. Where it is refused, for the model or with 10 to
/// 20, the state stays as it was.
///
/// ```
/// use brothmaple::example::MODEL;
/// use brothmaple::state::{new_state, record};
/// use brothmaple::{Cause, Move, MoveKind};
///
/// let mut state = new_state();
/// brothmaple::start(MODEL, &mut state)?;
/// let spread = Move::inside(MoveKind::Spread, 0, 0);
/// brothmaple::step(MODEL, &mut state, spread)?;
/// let lines: Vec<u32> = record(&state, 0).unwrap().threads().map(|thread| thread.line()).collect();
/// assert_eq!(lines, [1, 3]);
/// let refusal = brothmaple::step(MODEL, &mut state, spread).unwrap_err();
/// assert_eq!(refusal.cause, Cause::WrongLine);
/// # Ok::<(), brothmaple::Refusal>(())
/// ```
pub fn step(model: &[u8], state: &mut [u32], step: Move) -> Result<(), Refusal> {
    of_call("bm_step", packed::step(model, state, step))
}

/// Makes a list of moves, each in turn, passes over those that are refused, and
/// writes one answer a move. Where the run is refused, for the model, with
/// [`Cause::Room`] or with [`Cause::Spoilt`], state and answers stay as they
/// were.
///
/// ```
/// use brothmaple::example::MODEL;
/// use brothmaple::state::new_state;
/// use brothmaple::{Cause, Move, MoveKind};
///
/// let mut state = new_state();
/// brothmaple::start(MODEL, &mut state)?;
/// let moves = [Move::intra(0, 0, 1), Move::inside(MoveKind::Spread, 0, 0), Move::intra(0, 0, 1)];
/// let mut lent = [0; 3];
/// let answers = brothmaple::run(MODEL, &mut state, &moves, &mut lent)?;
/// assert_eq!(answers.get(0), Some(Err(Cause::Nobody)));
/// assert_eq!(answers.get(1), Some(Ok(())));
/// assert_eq!(answers.bytes(), [12, 0, 0]);
/// let refusal = brothmaple::run(MODEL, &mut state, &moves, &mut lent[1..]).unwrap_err();
/// assert_eq!(refusal.cause, Cause::Room);
/// # Ok::<(), brothmaple::Refusal>(())
/// ```
pub fn run<'a>(
    model: &[u8],
    state: &mut [u32],
    moves: &[Move],
    answers: &'a mut [u8],
) -> Result<Answers<'a>, Refusal> {
    of_call("bm_run", packed::run(model, state, moves, answers))?;
    Ok(Answers(answers))
}
