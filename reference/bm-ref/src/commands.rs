//! The commands: each gives the text to print. All files that a command names
//! are read before it answers.

use bm::cases::{self, Case};
use bm::model::Model;
use bm::state::{self, STATE_WORDS};
use bm::step;
use bm::text::{NameList, assemble, disassemble};
use bm::{Cause, Estimate, Refusal, Verdict, calls, least, listing};

use crate::args::Given;
use crate::failure::{Answer, Failure};
use crate::files;
use crate::table::{FROM, STATE};

fn line(text: impl std::fmt::Display) -> Answer {
    Ok(format!("{text}\n"))
}

pub fn check(given: &Given) -> Answer {
    let (model, estimate) = given.images()?;
    line(calls::check(&model, &estimate))
}

pub fn shut_off(given: &Given) -> Answer {
    let box_no = given.number(2, u32::MAX.into())?;
    let (model, estimate) = given.images()?;
    line(calls::shut_off(&model, &estimate, box_no as usize))
}

pub fn refused_block(given: &Given) -> Answer {
    let (model, estimate) = given.images()?;
    let part = calls::refused_block(&model, &estimate);
    let whose = match calls::check(&model, &estimate) {
        Verdict::RefusedEstimate(_) if !part.is_empty() => (&estimate, "estimate"),
        _ => (&model, "model"),
    };
    let start = part.as_ptr().addr() - whose.0.as_ptr().addr();
    line(format_args!("{} {start} {}", whose.1, part.len()))
}

fn refused_model(refusal: Refusal) -> String {
    Verdict::RefusedModel(refusal).to_string()
}

fn refused_estimate(refusal: Refusal) -> String {
    Verdict::RefusedEstimate(refusal).to_string()
}

pub fn read(given: &Given) -> Answer {
    match Model::read(&given.image(0)?) {
        Err(refusal) => line(refused_model(refusal)),
        Ok(model) => Ok(listing::model(&model)),
    }
}

pub fn read_estimate(given: &Given) -> Answer {
    let (model, estimate) = given.images()?;
    let model = match Model::read(&model) {
        Err(refusal) => return line(refused_model(refusal)),
        Ok(model) => model,
    };
    match Estimate::read(&model, &estimate) {
        Err(refusal) => line(refused_estimate(refusal)),
        Ok(read) => Ok(listing::estimate(&model, &read)),
    }
}

pub fn run(given: &Given) -> Answer {
    let (model, moves) = (given.image(0)?, files::moves(given.arg(1))?);
    let from = given.file(&FROM).map(files::words).transpose()?;
    let model = match Model::read(&model) {
        Err(refusal) => return line(refused_model(refusal)),
        Ok(model) => model,
    };
    let starts = from.is_none();
    let mut words = from.unwrap_or_else(|| vec![0; STATE_WORDS]);
    let mut answers = vec![0; moves.len()];
    let started = if starts { state::start(&model, &mut words) } else { Ok(()) };
    let ran = started.and_then(|()| step::run(&model, &mut words, &moves, &mut answers));
    if let Err(cause) = ran {
        return line(format_args!("refused {}", Cause::plain(cause)));
    }
    if let Some(path) = given.file(&STATE) {
        files::write(path, &files::word_bytes(&words))?;
    }
    Ok(answers.iter().map(|answer| format!("{answer}\n")).collect())
}

/// The number of a call's answer.
fn number(answer: Result<(), Refusal>) -> u8 {
    answer.map_or_else(|refusal| refusal.cause.number(), |()| 0)
}

pub fn steps(given: &Given) -> Answer {
    let stamp = given.number(2, u32::MAX.into())? as u32;
    let (model, moves) = (given.image(0)?, files::moves(given.arg(1))?);
    let boxes = Model::read(&model).map_or(0, |model| model.boxes().len());
    let mut words = vec![0; STATE_WORDS];
    let begin = |words: &mut [u32]| {
        let answer = number(calls::start(&model, words));
        words[0] = stamp;
        format!("start answer {answer}{}\n", listing::threads(boxes, words))
    };
    let mut text = begin(&mut words);
    for mv in &moves {
        let answer = number(calls::step(&model, &mut words, *mv));
        let numbers = mv.numbers().map(|number| format!(" {number}")).concat();
        let left = listing::threads(boxes, &words);
        text.push_str(&format!("move{numbers} answer {answer}{left}\n"));
    }
    text.push_str(&begin(&mut words));
    let mut answers = vec![0; moves.len()];
    let answer = number(calls::run(&model, &mut words, &moves, &mut answers));
    let answers: String = answers.iter().map(|answer| format!(" {answer}")).collect();
    let left = listing::threads(boxes, &words);
    Ok(format!("{text}run answer {answer} answers{answers}{left}\n"))
}

/// The failure that a command cannot go on with a refused image.
fn unusable(path: &str, refused: String) -> Failure {
    Failure::Content(format!("{path}: {refused}"))
}

/// The model of the first argument, which must not be refused.
fn accepted_model(given: &Given) -> Result<Model, Failure> {
    let read = Model::read(&given.image(0)?);
    read.map_err(|refusal| unusable(given.arg(0), refused_model(refusal)))
}

pub fn least(given: &Given) -> Answer {
    let model = accepted_model(given)?;
    let image = least::least(&model).image(model.boxes().len());
    files::write(given.arg(1), &image)?;
    Ok(String::new())
}

pub fn asm(given: &Given) -> Answer {
    let path = given.arg(0);
    let said = assemble(&files::text(path)?).map_err(|error| files::text_error(path, error))?;
    let image = said.model.image();
    if let Err(refusal) = Model::read(&image) {
        return Err(unusable(path, refused_model(refusal)));
    }
    if let Some(to) = given.may(2) {
        let estimate = said.estimate.map_err(|error| files::text_error(path, error))?;
        files::write(to, &estimate.image(said.model.boxes.len()))?;
    }
    files::write(given.arg(1), &image)?;
    Ok(String::new())
}

pub fn dis(given: &Given) -> Answer {
    let image = given.may(1).map(|_| given.image(1)).transpose()?;
    let model = accepted_model(given)?;
    let estimate = image.map(|image| Estimate::read(&model, &image)).transpose();
    let estimate = estimate.map_err(|refusal| unusable(given.arg(1), refused_estimate(refusal)))?;
    let names = NameList::numbered(model.kinds().len());
    Ok(disassemble(&model, estimate.as_ref(), &names))
}

/// Writes cases into folders, and the list of their sorts.
pub fn gen_cases(given: &Given) -> Answer {
    let (seed, count) = (given.number(0, u64::MAX)?, given.number(1, u64::MAX)?);
    let dir = given.arg(2);
    let mut index = String::new();
    for at in 0..count {
        let case = cases::case(seed, at);
        let name = format!("case-{at:06}");
        write_case(&format!("{dir}/{name}"), &case)?;
        index.push_str(&format!("{name} {}\n", case.sort));
    }
    files::folder(dir)?;
    files::write(&format!("{dir}/index.txt"), index.as_bytes())?;
    Ok(String::new())
}

fn write_case(folder: &str, case: &Case) -> Result<(), Failure> {
    files::folder(folder)?;
    files::write(&format!("{folder}/model.blk"), &case.model)?;
    files::write(&format!("{folder}/estimate.blk"), &case.estimate)?;
    files::write(&format!("{folder}/moves.txt"), files::moves_text(&case.moves).as_bytes())?;
    match &case.words {
        Some(words) => files::write(&format!("{folder}/state.bin"), &files::word_bytes(words)),
        None => Ok(()),
    }
}
