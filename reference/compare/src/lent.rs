//! A lent state on both sides, called upon in the same way.

use bm::cases::rng::Rng;
use bm::state::{RECORD_WORDS, STATE_WORDS};
use bm::step::{Session, move_kind};
use bm::{Cause, Model, Move, Refusal, calls};

use crate::report::Report;
use crate::{packing, proved};

/// What stands in lent answers; no answer is this.
const LENT_ANSWER: u8 = 0xa5;

/// The words that each side is lent, alike before each call.
pub struct Lent {
    proved: Vec<u32>,
    rust: Vec<u32>,
    /// The words before the last call.
    before: Vec<u32>,
}

impl Lent {
    pub fn new(words: Vec<u32>) -> Lent {
        Lent { proved: words.clone(), before: words.clone(), rust: words }
    }

    /// What a start of this model leaves of words at random.
    pub fn started(report: &mut Report, rng: &mut Rng, model: &[u8]) -> Lent {
        let mut lent = Lent::new((0..STATE_WORDS).map(|_| rng.word() as u32).collect());
        lent.start(model, report);
        lent
    }

    pub fn words(&self) -> &[u32] {
        &self.rust
    }

    /// Writes a word on both sides.
    pub fn put(&mut self, at: usize, word: u32) {
        (self.proved[at], self.rust[at]) = (word, word);
    }

    pub fn start(&mut self, model: &[u8], report: &mut Report) {
        self.before.copy_from_slice(&self.rust);
        let packed = proved::start(model, &mut self.proved);
        let answer = calls::start(model, &mut self.rust);
        let len = self.rust.len();
        self.note(report, packed, answer, true, || format!("start into {len} words"));
        report.tally.calls.started(answer);
    }

    pub fn step(&mut self, model: &[u8], mv: Move, report: &mut Report) -> Result<(), Refusal> {
        self.before.copy_from_slice(&self.rust);
        let packed = proved::step(model, &mut self.proved, mv);
        let answer = calls::step(model, &mut self.rust, mv);
        let len = self.rust.len();
        self.note(report, packed, answer, true, || {
            format!("step {:?} on {len} words", mv.numbers())
        });
        report.tally.calls.stepped(mv, answer);
        if answer.is_ok() && [move_kind::NEW, move_kind::EXPOSE].contains(&mv.kind) {
            let record = self.rust.chunks(RECORD_WORDS).nth(mv.box_no as usize);
            report.tally.calls.named(mv, record.expect("the box of a move that was made"));
        }
        let causes = [Cause::NoSite, Cause::Unfit, Cause::Private];
        if mv.kind == move_kind::INTER && answer.is_err_and(|why| causes.contains(&why.cause)) {
            report.tally.calls.inter_refused(&self.inter_causes(model, mv));
        }
        answer
    }

    /// What an inter move that was refused with 16, 17 or 18 meets of them.
    fn inter_causes(&mut self, model: &[u8], mv: Move) -> Vec<Cause> {
        let model = Model::read(model).expect("a model that a move was made or refused in");
        let session = Session::open(&model, &mut self.before).expect("a state");
        session.inter_causes(mv).expect("a move that meets none of 12 to 14")
    }

    /// A run, with so many answers lent.
    pub fn run(
        &mut self,
        model: &[u8],
        moves: &[Move],
        room: usize,
        report: &mut Report,
    ) -> Result<(), Refusal> {
        self.before.copy_from_slice(&self.rust);
        let (mut proved, mut rust) = (vec![LENT_ANSWER; room], vec![LENT_ANSWER; room]);
        let packed = proved::run(model, &mut self.proved, &proved::list(moves), &mut proved);
        let answer = calls::run(model, &mut self.rust, moves, &mut rust);
        let kept = answer.is_ok() || rust.iter().all(|byte| *byte == LENT_ANSWER);
        let at = proved.iter().zip(&rust).position(|(one, other)| one != other);
        let (len, list) = (self.rust.len(), moves.len());
        let what = || {
            format!("run of {list} moves, {room} answers, {len} words, first other answer {at:?}")
        };
        self.note(report, packed, answer, kept && at.is_none(), what);
        report.tally.runs.ran(moves, &rust, answer);
        answer
    }

    /// Compares answers and words, given whether other buffers are as they must be. What is refused leaves the words as they were.
    /// The proved side goes on with the Rust side's words.
    fn note(
        &mut self,
        report: &mut Report,
        packed: u64,
        answer: Result<(), Refusal>,
        others: bool,
        what: impl FnOnce() -> String,
    ) {
        let kept = answer.is_ok() || self.rust == self.before;
        let (alike, expected) = (self.proved == self.rust, packing::call(answer));
        let said = || {
            let words = if alike && kept { "words alike" } else { "words differ" };
            format!("{}: proved {packed:#x}, Rust {expected:#x}, {words}", what())
        };
        report.call(packed == expected && alike && kept && others, said);
        if !alike {
            self.proved.copy_from_slice(&self.rust);
        }
    }
}
