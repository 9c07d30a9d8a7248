//! The calls that take images: each reads the model first.

use std::fmt;

use crate::block::BLOCK;
use crate::clauses::{self, Broken};
use crate::estimate::Estimate;
use crate::model::Model;
use crate::refusal::{Cause, Refusal};
use crate::state;
use crate::step::{self, Move};

/// What the checker says of a model and an estimate.
#[derive(Clone, Copy, PartialEq, Eq, Debug)]
pub enum Verdict {
    Accepted,
    Broken(Broken),
    RefusedModel(Refusal),
    RefusedEstimate(Refusal),
}

/// Prints the checking program's line.
impl fmt::Display for Verdict {
    fn fmt(&self, f: &mut fmt::Formatter<'_>) -> fmt::Result {
        match self {
            Verdict::Accepted => f.write_str("accepted"),
            Verdict::Broken(broken) => broken.fmt(f),
            Verdict::RefusedModel(refusal) => write!(f, "refused model {refusal}"),
            Verdict::RefusedEstimate(refusal) => write!(f, "refused estimate {refusal}"),
        }
    }
}

/// The answer to the question whether a box is shut off.
#[derive(Clone, Copy, PartialEq, Eq, Debug)]
pub enum ShutOff {
    Yes,
    No,
    /// The model lacks the box: refusal 12.
    NoBox,
    /// Not accepted, and why.
    Not(Verdict),
}

impl fmt::Display for ShutOff {
    fn fmt(&self, f: &mut fmt::Formatter<'_>) -> fmt::Result {
        match self {
            ShutOff::Yes => f.write_str("yes"),
            ShutOff::No => f.write_str("no"),
            ShutOff::NoBox => write!(f, "refused {}", Cause::Nobody.plain()),
            ShutOff::Not(verdict) => verdict.fmt(f),
        }
    }
}

/// Reads both images, checks the clauses, and asks something of an accepted
/// pair.
fn of_accepted<T>(
    model: &[u8],
    estimate: &[u8],
    ask: impl FnOnce(&Model, &Estimate) -> T,
) -> Result<T, Verdict> {
    let model = Model::read(model).map_err(Verdict::RefusedModel)?;
    let estimate = Estimate::read(&model, estimate).map_err(Verdict::RefusedEstimate)?;
    clauses::check(&model, &estimate).map_err(Verdict::Broken)?;
    Ok(ask(&model, &estimate))
}

/// The checker.
pub fn check(model: &[u8], estimate: &[u8]) -> Verdict {
    of_accepted(model, estimate, |_, _| Verdict::Accepted).unwrap_or_else(|verdict| verdict)
}

/// Both images, read: no clause is tried.
pub fn read_estimate(model: &[u8], estimate: &[u8]) -> Verdict {
    let model = match Model::read(model) {
        Err(refusal) => return Verdict::RefusedModel(refusal),
        Ok(read) => read,
    };
    let read = Estimate::read(&model, estimate);
    read.err().map_or(Verdict::Accepted, Verdict::RefusedEstimate)
}

/// The question whether a box is shut off.
pub fn shut_off(model: &[u8], estimate: &[u8], box_no: usize) -> ShutOff {
    let asked = of_accepted(model, estimate, |model, estimate| {
        if box_no >= model.boxes().len() {
            ShutOff::NoBox
        } else if clauses::shut_off(model, estimate, box_no) {
            ShutOff::Yes
        } else {
            ShutOff::No
        }
    });
    asked.unwrap_or_else(ShutOff::Not)
}

/// The refused block as a part of its image: 512 bytes for refusals 2 to 5,
/// otherwise an empty part of the model.
pub fn refused_block<'a>(model: &'a [u8], estimate: &'a [u8]) -> &'a [u8] {
    let part = |image: &'a [u8], refusal: Refusal| match refusal.cause {
        Cause::Check | Cause::Heading | Cause::Count | Cause::Stray => {
            let start = BLOCK * refusal.first as usize;
            &image[start..start + BLOCK]
        }
        _ => &model[..0],
    };
    let read = match Model::read(model) {
        Err(refusal) => return part(model, refusal),
        Ok(read) => read,
    };
    match Estimate::read(&read, estimate) {
        Err(refusal) => part(estimate, refusal),
        Ok(_) => &model[..0],
    }
}

/// Writes a model's start: refusals 1 to 10.
pub fn start(model: &[u8], words: &mut [u32]) -> Result<(), Refusal> {
    let model = Model::read(model)?;
    state::start(&model, words).map_err(Cause::plain)
}

/// Makes one move: refusals 1 to 20.
pub fn step(model: &[u8], words: &mut [u32], mv: Move) -> Result<(), Refusal> {
    let model = Model::read(model)?;
    step::step(&model, words, mv).map_err(Cause::plain)
}

/// Makes a list of moves: refusals 1 to 11.
pub fn run(
    model: &[u8],
    words: &mut [u32],
    moves: &[Move],
    answers: &mut [u8],
) -> Result<(), Refusal> {
    let model = Model::read(model)?;
    step::run(&model, words, moves, answers).map_err(Cause::plain)
}
