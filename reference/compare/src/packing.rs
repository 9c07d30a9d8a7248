//! Answers of the Rust implementation, packed as the proved library packs its own.

use bm::block::BLOCK;
use bm::{Broken, Refusal, ShutOff, Verdict};

const DONE: u64 = 0;
const BROKEN: u64 = 1;
const REFUSED_MODEL: u64 = 2;
const REFUSED_ESTIMATE: u64 = 3;
const YES: u64 = 4;
const NO: u64 = 5;
const REFUSED_CALL: u64 = 6;
const NO_ROOM: u64 = 7;

fn packed(tag: u64, number: u8, first: u64, second: u64) -> u64 {
    tag + (u64::from(number) << 8) + (first << 16) + (second << 32)
}

fn refusal(tag: u64, why: Refusal) -> u64 {
    packed(tag, why.cause.number(), why.first.into(), why.second.into())
}

/// A reader's answer.
pub fn read<T>(answer: Result<T, Refusal>) -> u64 {
    answer.err().map_or(DONE, |why| refusal(REFUSED_MODEL, why))
}

/// The checker's verdict.
pub fn verdict(verdict: Verdict) -> u64 {
    match verdict {
        Verdict::Accepted => DONE,
        Verdict::Broken(Broken { clause, box_no, record, missing }) => {
            packed(BROKEN, clause, box_no as u64, record as u64) + (u64::from(missing.0) << 48)
        }
        Verdict::RefusedModel(why) => refusal(REFUSED_MODEL, why),
        Verdict::RefusedEstimate(why) => refusal(REFUSED_ESTIMATE, why),
    }
}

/// The answer to the question.
pub fn question(answer: ShutOff) -> u64 {
    match answer {
        ShutOff::Yes => YES,
        ShutOff::No => NO,
        ShutOff::NoBox => packed(REFUSED_CALL, 12, 0, 0),
        ShutOff::Not(why) => verdict(why),
    }
}

/// The answer of a call on a lent state: the model's refusals have numbers up to 9.
pub fn call(answer: Result<(), Refusal>) -> u64 {
    let tag = |why: Refusal| if why.cause.number() < 10 { REFUSED_MODEL } else { REFUSED_CALL };
    answer.err().map_or(DONE, |why| refusal(tag(why), why))
}

/// Where the refused block stands: its image, the refusal, the block and its length; without one, the model and no bytes.
pub fn refused_block(verdict: Verdict) -> u64 {
    let block = |tag: u64, why: Refusal| match why.cause.number() {
        number @ 2..=5 => packed(tag, number, why.first.into(), BLOCK as u64),
        _ => packed(REFUSED_MODEL, 0, 0, 0),
    };
    match verdict {
        Verdict::RefusedModel(why) => block(REFUSED_MODEL, why),
        Verdict::RefusedEstimate(why) => block(REFUSED_ESTIMATE, why),
        Verdict::Accepted | Verdict::Broken(_) => packed(REFUSED_MODEL, 0, 0, 0),
    }
}

/// A part copied to the front of a buffer: how many bytes, or that there is no room.
pub fn copied(part: &[u8], buffer: &mut [u8]) -> u64 {
    let Some(front) = buffer.get_mut(..part.len()) else { return NO_ROOM };
    front.copy_from_slice(part);
    packed(DONE, 0, part.len() as u64, 0)
}
