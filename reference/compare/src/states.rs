//! States that break a state rule, states that look odd and are in order, states with words changed at random, and lent words that are
//! too few or too many.

use bm::cases::change::Change;
use bm::cases::odd::ODDITIES;
use bm::cases::random;
use bm::cases::rng::Rng;
use bm::cases::spoil::SPOILINGS;
use bm::cases::walk::{self, Taste};
use bm::cases::{any_size, walked_words};
use bm::state::{RECORD_WORDS, STATE_WORDS};
use bm::{Cause, Move, Refusal};

use crate::lent::Lent;
use crate::report::{Part, Report};
use crate::walks::{Subject, Walk};

const STATES: Part = Part { name: "states", number: 5 };
/// How many states of a case have words changed at random.
const CHANGED: usize = 12;
/// The moves that go on from an odd state.
const GO_ON: Walk = Walk { moves: 4, taste: Taste::PLAIN };
/// Numbers of lent words that are not those of a state.
const LENGTHS: [usize; 7] =
    [0, 1, RECORD_WORDS, STATE_WORDS - 1, STATE_WORDS + 1, 10_251, 2 * STATE_WORDS];

/// A state that keeps the state rules, and its model.
struct State {
    subject: Subject,
    words: Vec<u32>,
}

fn is_spoilt(answer: Result<(), Refusal>) -> bool {
    answer == Err(Cause::Spoilt.plain())
}

impl State {
    fn new(rng: &mut Rng) -> State {
        let size = any_size(rng);
        let subject = Subject::new(random::model(rng, size));
        let words = walked_words(rng, &subject.model);
        State { subject, words }
    }

    /// A move that the state allows, if there is one.
    fn some_move(&self, rng: &mut Rng) -> Move {
        let allowed = walk::allowed(&self.subject.model, &self.words);
        rng.pick(&allowed).unwrap_or_else(|| walk::any_move(rng, &self.subject.model))
    }

    /// The state after a change, if it has a place for it.
    fn changed(&self, rng: &mut Rng, change: &Change) -> Option<Lent> {
        let mut words = self.words.clone();
        change.make(rng, &self.subject.model, &mut words).then(|| Lent::new(words))
    }

    fn compare_spoilt(&self, report: &mut Report, rng: &mut Rng, mv: Move) {
        for (at, spoiling) in SPOILINGS.iter().enumerate() {
            let Some(mut lent) = self.changed(rng, spoiling) else { continue };
            if is_spoilt(lent.step(&self.subject.image, mv, report)) {
                report.tally.calls.spoilt.add(at);
            }
        }
    }

    fn compare_odd(&self, report: &mut Report, rng: &mut Rng) {
        for (at, oddity) in ODDITIES.iter().enumerate() {
            let Some(mut lent) = self.changed(rng, oddity) else { continue };
            let mv = walk::next_move(rng, &self.subject.model, lent.words(), Taste::PLAIN);
            if !is_spoilt(lent.step(&self.subject.image, mv, report)) {
                report.tally.calls.odd.add(at);
            }
            self.subject.go_on(report, rng, &mut lent, GO_ON);
        }
    }

    /// A word near those that stand there, or one of the state.
    fn some_word(&self, rng: &mut Rng, word: u32) -> u32 {
        match rng.below(8) {
            0 => 0,
            1 => word.wrapping_add(1),
            2 => word.wrapping_sub(1),
            3 => word.wrapping_add(64),
            4 => word ^ 1 << rng.below(32),
            5 => rng.between(1, 64 * 3) as u32,
            _ => self.words[rng.below(STATE_WORDS)],
        }
    }

    /// The place of some word: mostly one that is not zero.
    fn some_place(&self, rng: &mut Rng) -> usize {
        let used: Vec<usize> = (0..STATE_WORDS).filter(|at| self.words[*at] != 0).collect();
        let place = if rng.percent(80) { rng.pick(&used) } else { None };
        place.unwrap_or_else(|| rng.below(STATE_WORDS))
    }

    fn compare_changed(&self, report: &mut Report, rng: &mut Rng, mv: Move) {
        for _ in 0..CHANGED {
            let mut words = self.words.clone();
            for _ in 0..rng.between(1, 2) {
                let at = self.some_place(rng);
                words[at] = self.some_word(rng, words[at]);
            }
            let spoilt = is_spoilt(Lent::new(words).step(&self.subject.image, mv, report));
            report.tally.calls.changed.add(usize::from(!spoilt));
        }
    }

    /// Start and step on lent words of a wrong length.
    fn compare_room(&self, report: &mut Report, rng: &mut Rng, mv: Move) {
        let mut words = self.words.clone();
        words.resize(LENGTHS[rng.below(LENGTHS.len())], 7);
        let mut lent = Lent::new(words);
        let _ = lent.step(&self.subject.image, mv, report);
        lent.start(&self.subject.image, report);
    }
}

pub fn compare(report: &mut Report) {
    for number in 0..report.plan.cases {
        let mut rng = report.begin(STATES, number);
        let state = State::new(&mut rng);
        let mv = state.some_move(&mut rng);
        state.compare_spoilt(report, &mut rng, mv);
        state.compare_odd(report, &mut rng);
        state.compare_changed(report, &mut rng, mv);
        state.compare_room(report, &mut rng, mv);
    }
}
