//! Walks from a start: each step compared, made or refused, and the words after it.

use bm::cases::crafted::{self, EVERY_CLAUSE, PRIVATE_AND_MORE, REFUSED_MOVES, RefusedMove};
use bm::cases::random::{self, Size};
use bm::cases::rng::Rng;
use bm::cases::walk::{self, Taste};
use bm::names::MAX_STAMP;
use bm::state::RECORD_WORDS;
use bm::step::move_kind;
use bm::write::Draft;
use bm::{Model, Move};

use crate::lent::Lent;
use crate::report::{Part, Report};

const WALKS: Part = Part { name: "walks", number: 4 };
/// How many moves a walk has.
const MOVES: usize = 50;

/// Moves of which more are refused than made.
const WILD: Taste = Taste { allowed: 40, growth: 20, crowd: false };

/// A random model, or one that has every kind of line.
pub fn some_model(rng: &mut Rng) -> Model {
    let size = match rng.below(100) {
        0..8 => return crafted::model(EVERY_CLAUSE),
        8 => Size { boxes: 0, ..Size::small(rng) },
        9..15 => Size::LARGEST,
        15..40 => Size::small(rng),
        40..60 => Size::typical(rng),
        _ => Size::lively(rng),
    };
    random::model(rng, size)
}

/// One of the last stamps of 16 bits, or of all.
fn late_stamp(rng: &mut Rng) -> u32 {
    let last = if rng.percent(50) { u16::MAX.into() } else { MAX_STAMP };
    last - rng.below(3) as u32
}

/// A model and its image.
pub struct Subject {
    pub model: Model,
    pub image: Vec<u8>,
}

impl Subject {
    pub fn new(model: Model) -> Subject {
        Subject { image: Draft::of(&model).image(), model }
    }

    /// Leaves the boxes of a state few stamps, of 16 bits or of all.
    fn use_stamps(&self, rng: &mut Rng, lent: &mut Lent) {
        for box_no in 0..self.model.boxes().len() {
            lent.put(box_no * RECORD_WORDS, late_stamp(rng));
        }
    }

    /// Makes moves, each chosen by the state that the last one left.
    pub fn go_on(&self, report: &mut Report, rng: &mut Rng, lent: &mut Lent, walk: Walk) {
        for _ in 0..walk.moves {
            let mv = walk::next_move(rng, &self.model, lent.words(), walk.taste);
            let _ = lent.step(&self.image, mv, report);
        }
    }
}

/// How many moves, and how they are chosen.
#[derive(Clone, Copy)]
pub struct Walk {
    pub moves: usize,
    pub taste: Taste,
}

fn random_walk(report: &mut Report, rng: &mut Rng) {
    let subject = Subject::new(some_model(rng));
    let mut lent = Lent::started(report, rng, &subject.image);
    if rng.percent(15) {
        subject.use_stamps(rng, &mut lent);
    }
    let taste = [Taste::PLAIN, Taste::LIVELY, Taste::GROWING, WILD][rng.below(4)];
    subject.go_on(report, rng, &mut lent, Walk { moves: MOVES, taste });
}

/// The walk that leads to a refusal, and on from there.
fn crafted_walk(report: &mut Report, rng: &mut Rng, refused: &RefusedMove) {
    let subject = Subject::new(crafted::model(refused.text));
    let mut lent = Lent::started(report, rng, &subject.image);
    lent.put(0, refused.stamp);
    for mv in refused.moves() {
        let _ = lent.step(&subject.image, mv, report);
    }
    subject.go_on(report, rng, &mut lent, Walk { moves: 5, taste: WILD });
}

/// Name 59 made twice, by new or by expose, with late stamps, and on from there.
fn stamp_walk(report: &mut Report, rng: &mut Rng) {
    let by_new = rng.percent(50);
    let subject = Subject::new(crafted::last_name(by_new));
    let mut lent = Lent::started(report, rng, &subject.image);
    lent.put(0, late_stamp(rng));
    let make = if by_new { move_kind::NEW } else { move_kind::EXPOSE };
    let copy = [move_kind::COPY, 0, 0, 0, 0];
    for mv in [copy, copy, [make, 0, 1, 0, 0], [make, 0, 2, 0, 0]] {
        let _ = lent.step(&subject.image, Move::new(mv), report);
    }
    subject.go_on(report, rng, &mut lent, Walk { moves: 5, taste: WILD });
}

pub fn compare(report: &mut Report) {
    for number in 0..report.plan.cases {
        let mut rng = report.begin(WALKS, number);
        random_walk(report, &mut rng);
        let mut crafted = REFUSED_MOVES.iter().chain(&PRIVATE_AND_MORE);
        let at = rng.below(REFUSED_MOVES.len() + PRIVATE_AND_MORE.len());
        crafted_walk(report, &mut rng, crafted.nth(at).expect("a case at each place"));
        stamp_walk(report, &mut rng);
    }
}
