//! Rule 3 by trial: what a shut-off box is filled with does not show in the
//! others. Without the shut-off box, the same trial finds differences.

use bm::cases::random::{self, Size};
use bm::cases::rng::Rng;
use bm::cases::walk::{self, Taste};
use bm::state::RECORD_WORDS;
use bm::write::Draft;
use bm::{Model, Move, ShutOff, calls, least, step};

const APART: usize = 0;

/// Two models that differ in box 0 only.
struct Pair {
    one: Model,
    other: Model,
}

fn shut_off(draft: &Draft) -> bool {
    let image = draft.image();
    let model = Model::read(&image).expect("an accepted model");
    let estimate = least::least(&model).image(model.boxes().len());
    calls::shut_off(&image, &estimate, APART) == ShutOff::Yes
}

fn pair(rng: &mut Rng, apart: bool) -> Pair {
    loop {
        let size = if rng.percent(50) { Size::small(rng) } else { Size::lively(rng) };
        let size = Size { boxes: 3, names: 28, apart: apart.then_some(APART), ..size };
        let draft = random::draft(rng, size);
        let other = random::refilled(rng, &draft, size, APART);
        if shut_off(&draft) == apart && shut_off(&other) == apart {
            let read = |draft: &Draft| Model::read(&draft.image()).expect("an accepted model");
            return Pair { one: read(&draft), other: read(&other) };
        }
    }
}

/// A move that names box 0, allowed if there is one.
fn own_move(rng: &mut Rng, model: &Model, words: &[u32]) -> Move {
    let mut moves = walk::allowed(model, words);
    moves.retain(|mv| mv.names_box(APART));
    let any = loop {
        let any = walk::any_move(rng, model);
        if any.names_box(APART) {
            break any;
        }
    };
    if rng.percent(80) { rng.pick(&moves).unwrap_or(any) } else { any }
}

/// What a list of moves leaves and answers, box 0 struck out.
struct Outcome {
    answers: Vec<u8>,
    records: Vec<u32>,
    own_moves_made: usize,
}

/// Makes the moves, weaving moves of box 0 between them.
fn woven(rng: &mut Rng, model: &Model, left: &[Move]) -> Outcome {
    let mut words = walk::start(model);
    let mut outcome = Outcome { answers: Vec::new(), records: Vec::new(), own_moves_made: 0 };
    for mv in left {
        for _ in 0..rng.below(3) {
            let own = own_move(rng, model, &words);
            let made = step::step(model, &mut words, own).is_ok();
            outcome.own_moves_made += usize::from(made);
        }
        let answer = step::step(model, &mut words, *mv);
        outcome.answers.push(answer.map_or_else(|cause| cause.number(), |()| 0));
    }
    outcome.records = words[(APART + 1) * RECORD_WORDS..].to_vec();
    outcome
}

/// A list of moves that do not name box 0, from a walk of the first model.
fn left_moves(rng: &mut Rng, model: &Model) -> Vec<Move> {
    let mut words = walk::start(model);
    let mut moves = walk::walk(rng, model, &mut words, 60, Taste::PLAIN);
    moves.retain(|mv| !mv.names_box(APART));
    moves
}

/// How many of the trials differ outside box 0, and how many moves were made.
fn trials(apart: bool, count: usize, seed: u64) -> (usize, usize, usize) {
    let mut rng = Rng::new(seed);
    let (mut differ, mut own, mut others) = (0, 0, 0);
    for _ in 0..count {
        let pair = pair(&mut rng, apart);
        let left = left_moves(&mut rng, &pair.one);
        let one = woven(&mut rng, &pair.one, &left);
        let other = woven(&mut rng, &pair.other, &left);
        let same = one.answers == other.answers && one.records == other.records;
        differ += usize::from(!same);
        own += one.own_moves_made + other.own_moves_made;
        others += one.answers.iter().filter(|answer| **answer == 0).count();
    }
    (differ, own, others)
}

#[test]
fn shut_off_boxes_do_not_show() {
    let (differ, own, others) = trials(true, 1_500, 11);
    assert_eq!(differ, 0);
    assert!(own > 20_000 && others > 10_000, "{own} {others}");
}

#[test]
fn boxes_that_are_not_shut_off_show() {
    let (differ, own, others) = trials(false, 1_500, 12);
    assert!(differ > 100, "{differ}");
    assert!(own > 20_000 && others > 10_000, "{own} {others}");
}
