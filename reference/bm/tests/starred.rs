//! The starred and unstarred lines of model K.

use bm::block::BLOCK;
use bm::cases::k::{self, C, U, V, X, Y, Z};
use bm::model::LineNo;
use bm::names::{Held, NameNo};
use bm::state::{Record, STATE_WORDS, records};
use bm::step::Move;
use bm::{Estimate, ShutOff, calls, least};

fn line_of(estimate: &Estimate) -> String {
    calls::check(&k::model().image(), &estimate.image(2)).to_string()
}

/// E with names taken out of its sets.
fn short(change: impl Fn(&mut Estimate)) -> Estimate {
    let mut e = k::estimate();
    change(&mut e);
    e
}

fn drop_rho(e: &mut Estimate, of: NameNo, name: NameNo) {
    e.rho[of.index()] = e.rho[of.index()].without(name);
}

#[test]
fn checker_lines() {
    assert_eq!(line_of(&k::estimate()), "accepted");
    assert_eq!(line_of(&short(|e| drop_rho(e, Y, Z))), "clause 5 0 1 1");
    assert_eq!(line_of(&short(|e| drop_rho(e, Y, V))), "clause 6 0 1 4");
    let no_z = short(|e| {
        drop_rho(e, Y, Z);
        e.boxes[0].kap[X.index()] = bm::NameSet::EMPTY;
    });
    assert_eq!(line_of(&no_z), "clause 4 0 3 1");
    let no_c = short(|e| e.boxes[1].eps[U.index()] = bm::NameSet::EMPTY);
    assert_eq!(line_of(&no_c), "clause 2 1 0 5");
}

/// Where a name is asked for by itself, it is what is missing; a site's
/// subject is asked for before its type.
#[test]
fn names_that_are_missing_themselves() {
    assert_eq!(line_of(&short(|e| drop_rho(e, V, V))), "clause 1 0 4 4");
    assert_eq!(line_of(&short(|e| e.boxes[1].shown = bm::NameSet::EMPTY)), "clause 2 1 0 3");
    let neither = short(|e| {
        e.boxes[1].shown = bm::NameSet::EMPTY;
        e.boxes[1].eps[U.index()] = bm::NameSet::EMPTY;
    });
    assert_eq!(line_of(&neither), "clause 2 1 0 3");
}

#[test]
fn e_is_the_least_estimate() {
    let model = bm::Model::read(&k::model().image()).unwrap();
    assert_eq!(least::least(&model), k::estimate());
}

#[test]
fn shut_off_answers() {
    let (model, e) = (k::model().image(), k::estimate().image(2));
    assert_eq!(calls::shut_off(&model, &e, 0), ShutOff::No);
    assert_eq!(calls::shut_off(&model, &e, 1), ShutOff::No);
    assert_eq!(calls::shut_off(&model, &e, 2), ShutOff::NoBox);
    let broken = short(|e| drop_rho(e, Y, Z)).image(2);
    assert_eq!(calls::shut_off(&model, &broken, 2).to_string(), "clause 5 0 1 1");
    assert_eq!(calls::shut_off(&model[..100], &e, 2).to_string(), "refused model 1 0 0");
    assert_eq!(calls::shut_off(&model, &e[..100], 2).to_string(), "refused estimate 1 0 0");

    let mut apart = k::model();
    apart.boxes[1].sites[0].ty = bm::NameSet::one(V);
    let read = bm::Model::read(&apart.image()).unwrap();
    let least = least::least(&read).image(2);
    assert_eq!(calls::shut_off(&apart.image(), &least, 0), ShutOff::Yes);
    assert_eq!(calls::shut_off(&apart.image(), &least, 1), ShutOff::Yes);
}

struct Play {
    model: Vec<u8>,
    words: Vec<u32>,
}

impl Play {
    fn start() -> Play {
        let mut play = Play { model: k::model().image(), words: vec![7; STATE_WORDS] };
        calls::start(&play.model, &mut play.words).unwrap();
        play
    }

    /// The answer to a move: 0 or the refusal's number.
    fn answer(&mut self, numbers: [u32; 5]) -> u8 {
        let before = self.words.clone();
        let outcome = calls::step(&self.model, &mut self.words, Move::new(numbers));
        if let Err(refusal) = outcome {
            assert_eq!(self.words, before);
            assert_eq!((refusal.first, refusal.second), (0, 0));
        }
        outcome.map_or_else(|refusal| refusal.cause.number(), |()| 0)
    }

    fn record(&self, box_no: usize) -> Record<'_> {
        Record(&records(&self.words).unwrap()[box_no])
    }

    fn lines(&self, box_no: usize) -> Vec<LineNo> {
        self.record(box_no).threads().map(|thread| thread.line()).collect()
    }
}

#[test]
fn start_of_k() {
    let play = Play::start();
    let mut expected = vec![0; STATE_WORDS];
    for (box_no, subject) in [(0, X), (1, U)] {
        let at = box_no * 1139;
        expected[at + 1] = 1;
        expected[at + 2] = 1;
        expected[at + 3] = Held::free(subject).0;
        expected[at + 5] = Held::free(C).0;
    }
    assert_eq!(play.words, expected);
}

#[test]
fn spread_then_intra() {
    let mut play = Play::start();
    assert_eq!(play.answer([2, 0, 0, 9, 9]), 0);
    assert_eq!(play.lines(0), [LineNo(1), LineNo(3)]);
    assert_eq!(play.answer([8, 0, 0, 9, 0]), 13);
    assert_eq!(play.answer([8, 0, 1, 9, 0]), 14);
    assert_eq!(play.answer([8, 0, 0, 9, 1]), 0);
    assert_eq!(play.lines(0), [LineNo(2), LineNo(4)]);
    assert_eq!(play.record(0).thread(0).binding(Y), Held::free(Z).0);
    assert_eq!(play.record(0).thread(1).binding(Y), 0);
}

#[test]
fn spread_then_inter() {
    let mut play = Play::start();
    assert_eq!(play.answer([2, 0, 0, 0, 0]), 0);
    assert_eq!(play.answer([9, 0, 0, 1, 0]), 0);
    assert_eq!(play.lines(0), [LineNo(2), LineNo(3)]);
    assert_eq!(play.lines(1), [LineNo(1)]);
    assert_eq!(play.record(0).thread(0).binding(Y), Held::free(V).0);
    assert_eq!(play.answer([9, 0, 0, 1, 0]), 14);
}

#[test]
fn moves_at_the_start() {
    let mut play = Play::start();
    assert_eq!(play.answer([2, 0, 1, 0, 0]), 12);
    assert_eq!(play.answer([9, 0, 0, 1, 0]), 14);
    assert_eq!(play.answer([0, 0, 0, 0, 0]), 12);
    assert_eq!(play.answer([10, 0, 0, 0, 0]), 12);
    assert_eq!(play.answer([1, 2, 0, 0, 0]), 12);
    assert_eq!(play.answer([9, 0, 0, 2, 0]), 12);
    assert_eq!(play.answer([9, 0, 0, 0, 0]), 13);
    assert_eq!(play.answer([8, 0, 0, 0, 1]), 12);
    assert_eq!(play.answer([9, 0, 0, u32::MAX, u32::MAX]), 12);
}

#[test]
fn run_answers_each_move() {
    let model = k::model().image();
    let mut words = vec![0; STATE_WORDS];
    calls::start(&model, &mut words).unwrap();
    let moves =
        [[2, 0, 1, 0, 0], [2, 0, 0, 0, 0], [9, 0, 0, 1, 0], [9, 0, 0, 1, 0], [1, 1, 0, 0, 0]];
    let moves = moves.map(Move::new);
    let mut answers = [99; 5];
    calls::run(&model, &mut words, &moves, &mut answers).unwrap();
    assert_eq!(answers, [12, 0, 0, 14, 0]);
    let mut stepped = Play::start();
    let one_by_one = moves.map(|mv| stepped.answer(mv.numbers()));
    assert_eq!(one_by_one, answers);
    assert_eq!(stepped.words, words);
}

#[test]
fn refused_blocks() {
    let (model, e) = (k::model().image(), k::estimate().image(2));
    let empty_of_model = |part: &[u8]| part.is_empty() && part.as_ptr() == model.as_ptr();
    assert!(empty_of_model(calls::refused_block(&model, &e)));
    assert!(empty_of_model(calls::refused_block(&model, &e[..BLOCK])));
    let mut bad = model.clone();
    bad[3 * BLOCK + 100] ^= 1;
    assert_eq!(calls::check(&bad, &e).to_string(), "refused model 2 3 0");
    assert_eq!(calls::refused_block(&bad, &e), &bad[3 * BLOCK..4 * BLOCK]);
    let mut bad = e.clone();
    bad[4 * BLOCK + 7] ^= 1;
    assert_eq!(calls::check(&model, &bad).to_string(), "refused estimate 2 4 0");
    let part = calls::refused_block(&model, &bad);
    assert_eq!((part.len(), part.as_ptr()), (BLOCK, bad[4 * BLOCK..].as_ptr()));
}
