//! What the calls answer, and how the packed answers are read.

use std::error::Error;
use std::fmt;

use crate::packed::{self, Tag};
use crate::refusal::{Cause, Image, Refusal, RefusedImage};

/// The first clause that an estimate breaks.
#[derive(Clone, Copy, PartialEq, Eq, Hash, Debug)]
pub struct Broken {
    /// The clause, 1 to 9.
    pub clause: u8,
    /// The box; 0 for clause 1.
    pub box_no: u32,
    /// The name (clause 1), the site (clause 2) or the line.
    pub record: u32,
    /// The name that is missing: the lowest that the first set short lacks.
    pub missing: u32,
}

/// Prints the checking program's line: `clause 5 0 1 1`.
impl fmt::Display for Broken {
    fn fmt(&self, f: &mut fmt::Formatter<'_>) -> fmt::Result {
        let Broken { clause, box_no, record, missing } = self;
        write!(f, "clause {clause} {box_no} {record} {missing}")
    }
}

/// What the checker says of a model and an estimate.
#[derive(Clone, Copy, PartialEq, Eq, Hash, Debug)]
pub enum Verdict {
    /// The estimate covers all that the model can do.
    Accepted,
    /// The estimate breaks a clause.
    Broken(Broken),
    /// One of the images is refused.
    Refused(RefusedImage),
}

/// Prints the checking program's line.
impl fmt::Display for Verdict {
    fn fmt(&self, f: &mut fmt::Formatter<'_>) -> fmt::Result {
        match self {
            Verdict::Accepted => f.write_str("accepted"),
            Verdict::Broken(broken) => broken.fmt(f),
            Verdict::Refused(refused) => refused.fmt(f),
        }
    }
}

/// The answer to the question whether a box is shut off.
#[derive(Clone, Copy, PartialEq, Eq, Hash, Debug)]
pub enum ShutOff {
    /// It is: from the start, no inter move that names it is ever made.
    Yes,
    /// It is not: it shares a type name with another box.
    No,
    /// The model has no such box: refusal 12.
    NoBox,
    /// The estimate is not accepted; the verdict says why.
    NotAccepted(Verdict),
}

/// Prints `yes`, `no`, `refused 12 0 0`, or the verdict's line.
impl fmt::Display for ShutOff {
    fn fmt(&self, f: &mut fmt::Formatter<'_>) -> fmt::Result {
        match self {
            ShutOff::Yes => f.write_str("yes"),
            ShutOff::No => f.write_str("no"),
            ShutOff::NoBox => write!(f, "refused {} 0 0", Cause::Nobody.number()),
            ShutOff::NotAccepted(verdict) => verdict.fmt(f),
        }
    }
}

/// The refused block, as a part of the image that it stands in.
#[derive(Clone, Copy, PartialEq, Eq, Debug)]
pub struct RefusedBlock<'r> {
    /// The image that it stands in.
    pub image: Image,
    /// Why it is refused: check, heading, count or stray.
    pub cause: Cause,
    /// The block's number in its image.
    pub block: usize,
    /// Its bytes, where they stand in the image.
    pub bytes: &'r [u8; 512],
}

/// The lent buffer is shorter than the block; nothing is copied.
#[derive(Clone, Copy, PartialEq, Eq, Hash, Debug)]
pub struct NoRoom;

impl fmt::Display for NoRoom {
    fn fmt(&self, f: &mut fmt::Formatter<'_>) -> fmt::Result {
        f.write_str("no room for a block of 512 bytes")
    }
}

impl Error for NoRoom {}

/// The answers of a run, one a move, in the lent bytes.
#[derive(Clone, Copy, PartialEq, Eq, Debug)]
pub struct Answers<'a>(pub(crate) &'a [u8]);

impl<'a> Answers<'a> {
    /// The answer to a move, by its place in the list: made, or why it was
    /// refused and passed over. `None` past the end of the list.
    pub fn get(self, at: usize) -> Option<Result<(), Cause>> {
        self.0.get(at).copied().map(move_answer)
    }

    /// The answers in order.
    pub fn iter(self) -> impl Iterator<Item = Result<(), Cause>> + use<'a> {
        self.0.iter().copied().map(move_answer)
    }

    /// The answers as bytes: 0, or the refusal's number.
    pub fn bytes(self) -> &'a [u8] {
        self.0
    }
}

fn move_answer(byte: u8) -> Result<(), Cause> {
    if byte == 0 { Ok(()) } else { Err(cause(byte)) }
}

/// The cause of a refusal. The contracts give every refusal a number from 1
/// to 20.
fn cause(number: u8) -> Cause {
    Cause::with_number(number).unwrap_or_else(|| {
        panic!("no refusal has the number {number}: the proved contracts exclude it")
    })
}

/// Where a call's contract does not allow an answer. It is proved for every
/// input, so this is not reached while that library is the one linked.
pub(crate) fn excluded(call: &str, answer: u64) -> ! {
    panic!("{call} answered {answer:#x}, which its proved contract excludes")
}

fn refusal(answer: u64) -> Refusal {
    let [first, second] = [packed::first(answer), packed::second(answer)].map(u32::from);
    Refusal { cause: cause(packed::number(answer)), first, second }
}

fn refused(image: Image, answer: u64) -> Verdict {
    Verdict::Refused(RefusedImage { image, refusal: refusal(answer) })
}

fn broken(answer: u64) -> Verdict {
    let [box_no, record] = [packed::first(answer), packed::second(answer)].map(u32::from);
    let missing = packed::name(answer).into();
    Verdict::Broken(Broken { clause: packed::number(answer), box_no, record, missing })
}

/// The checker's verdict.
pub(crate) fn verdict(call: &str, answer: u64) -> Verdict {
    match packed::tag(answer) {
        Tag::None => Verdict::Accepted,
        Tag::Clause => broken(answer),
        Tag::Model => refused(Image::Model, answer),
        Tag::Estimate => refused(Image::Estimate, answer),
        _ => excluded(call, answer),
    }
}

/// The answer of a call that reads a model and may be refused itself.
pub(crate) fn of_call(call: &str, answer: u64) -> Result<(), Refusal> {
    match packed::tag(answer) {
        Tag::None => Ok(()),
        Tag::Model | Tag::Call => Err(refusal(answer)),
        _ => excluded(call, answer),
    }
}

/// The block that an answer tells of, in the image that it stands in; none
/// where the part has no bytes.
pub(crate) fn refused_block(image: Image, bytes: &[u8], answer: u64) -> Option<RefusedBlock<'_>> {
    if packed::second(answer) == 0 {
        return None;
    }
    let block = usize::from(packed::first(answer));
    let bytes = bytes.as_chunks().0.get(block);
    let bytes = bytes.unwrap_or_else(|| excluded("bm_refused_block", answer));
    Some(RefusedBlock { image, cause: cause(packed::number(answer)), block, bytes })
}

#[cfg(test)]
mod tests {
    use super::*;

    #[test]
    fn causes_by_number() {
        for (number, cause) in (1..).zip(Cause::ALL) {
            assert_eq!(cause.number(), number);
            assert_eq!(move_answer(number), Err(cause));
        }
        assert_eq!(move_answer(0), Ok(()));
    }

    #[test]
    fn parts_of_an_answer() {
        let answer = 0x0000_0102_0304_0503;
        let refusal = Refusal { cause: Cause::Stray, first: 0x304, second: 0x102 };
        assert_eq!(
            verdict("", answer),
            Verdict::Refused(RefusedImage { image: Image::Estimate, refusal })
        );
        let broken = Broken { clause: 5, box_no: 0x304, record: 0x102, missing: 0x3b };
        assert_eq!(verdict("", 0x003b_0102_0304_0501), Verdict::Broken(broken));
    }

    #[test]
    #[should_panic(expected = "0x8 has no tag of an answer")]
    fn unknown_tag() {
        verdict("bm_check", 8);
    }

    #[test]
    #[should_panic(expected = "bm_start answered 0x4, which its proved contract excludes")]
    fn tag_of_another_call() {
        let _ = of_call("bm_start", 4);
    }

    #[test]
    #[should_panic(expected = "no refusal has the number 21")]
    fn unknown_refusal() {
        let _ = move_answer(21);
    }

    #[test]
    #[should_panic(expected = "bm_refused_block answered 0x20000010202")]
    fn block_past_the_image() {
        refused_block(Image::Model, &[0; 512], 0x0200_0001_0202);
    }
}
