//! Cases made for tests and comparisons: the same seed gives the same cases.

pub mod change;
pub mod crafted;
pub mod damage;
pub mod k;
pub mod odd;
pub mod random;
pub mod rng;
pub mod spoil;
pub mod walk;
pub mod walls;

use crate::estimate::Estimate;
use crate::model::Model;
use crate::names::MAX_STAMP;
use crate::step::Move;
use change::Change;
use crafted::{EVERY_CLAUSE, REFUSED_MOVES};
use damage::{DAMAGES, Damage, Pair};
use odd::ODDITIES;
use random::Size;
use rng::Rng;
use spoil::SPOILINGS;
use walk::Taste;

/// A case: images, moves, and the words to begin with if not a start.
#[derive(Clone, PartialEq, Eq, Debug)]
pub struct Case {
    pub sort: String,
    pub model: Vec<u8>,
    pub estimate: Vec<u8>,
    pub moves: Vec<Move>,
    pub words: Option<Vec<u32>>,
}

/// How often a random model is tried before a made one is taken.
const TRIES: usize = 40;

/// What a case is to show.
#[derive(Clone, Copy)]
enum Sort {
    NoBox,
    Small,
    Typical,
    Largest,
    /// Sixteen starting sites in a box.
    ManySites,
    /// The question says yes for a box.
    ShutOff,
    /// The clause is the first that is broken.
    Clause(u8),
    ClauseLargest(u8),
    Damaged(&'static Damage),
    /// A move of the list is refused with this number.
    RefusedMove(usize),
    Growing,
    /// A long run with much communication.
    Lively,
    /// A long run of the largest model.
    LongRun,
    /// From a state whose stamps are nearly or all used.
    Stamps,
    Spoilt(&'static Change),
    /// From a state that no run comes to, and that is in order.
    Odd(&'static Change),
    /// Words that are not 9,112.
    Room,
}

impl Sort {
    fn name(self) -> String {
        match self {
            Sort::NoBox => "no-box".to_string(),
            Sort::Small => "small".to_string(),
            Sort::Typical => "typical".to_string(),
            Sort::Largest => "largest".to_string(),
            Sort::ManySites => "many-sites".to_string(),
            Sort::ShutOff => "shut-off".to_string(),
            Sort::Clause(clause) => format!("clause-{clause}"),
            Sort::ClauseLargest(clause) => format!("clause-{clause}-largest"),
            Sort::Damaged(damage) => format!("refusal-{}-{}", damage.number, damage.name),
            Sort::RefusedMove(at) => format!("refusal-{}-move", REFUSED_MOVES[at].number),
            Sort::Growing => "growing".to_string(),
            Sort::Lively => "lively".to_string(),
            Sort::LongRun => "long-run".to_string(),
            Sort::Stamps => "stamps".to_string(),
            Sort::Spoilt(spoiling) => format!("refusal-11-{}", spoiling.name),
            Sort::Odd(oddity) => format!("odd-{}", oddity.name),
            Sort::Room => "refusal-10-room".to_string(),
        }
    }
}

fn all_sorts() -> Vec<Sort> {
    use Sort::*;
    let mut sorts = vec![NoBox, Small, Typical, Largest, ManySites, ShutOff];
    sorts.extend([Growing, Lively, LongRun, Stamps, Room]);
    sorts.extend((1..=9).flat_map(|clause| [Clause(clause), ClauseLargest(clause)]));
    sorts.extend(DAMAGES.iter().map(Damaged));
    sorts.extend((0..REFUSED_MOVES.len()).map(RefusedMove));
    sorts.extend(SPOILINGS.iter().map(Spoilt));
    sorts.extend(ODDITIES.iter().map(Odd));
    sorts
}

/// How many sorts of case there are; case `n` is of sort `n` modulo this.
pub fn sort_count() -> usize {
    all_sorts().len()
}

/// Case number `number` of a seed.
pub fn case(seed: u64, number: u64) -> Case {
    let sorts = all_sorts();
    let sort = sorts[(number % sorts.len() as u64) as usize];
    let mut rng = Rng::for_case(seed, number);
    let mut case = Maker { rng: &mut rng }.make(sort);
    case.sort = sort.name();
    case
}

/// Mostly a small size, seldom the largest.
pub fn any_size(rng: &mut Rng) -> Size {
    match rng.below(20) {
        0..10 => Size::small(rng),
        10..15 => Size::typical(rng),
        15..19 => Size::lively(rng),
        _ => Size::LARGEST,
    }
}

/// A state that a walk from the start left.
pub fn walked_words(rng: &mut Rng, model: &Model) -> Vec<u32> {
    let mut words = walk::start(model);
    let (count, taste) = (rng.between(0, 60), Taste { allowed: 95, growth: 30, crowd: true });
    walk::walk(rng, model, &mut words, count, taste);
    words
}

struct Maker<'a> {
    rng: &'a mut Rng,
}

impl Maker<'_> {
    fn make(&mut self, sort: Sort) -> Case {
        match sort {
            Sort::NoBox => self.sized(|rng| Size {
                names: rng.between(4, 60),
                boxes: 0,
                sites: 1,
                lines: (1, 1),
                parts: 0,
                apart: None,
            }),
            Sort::Small => self.sized(Size::small),
            Sort::Typical => self.sized(Size::typical),
            Sort::Largest => self.sized(|_| Size::LARGEST),
            Sort::ManySites => self.sized(|_| Size {
                names: 60,
                boxes: 1,
                sites: 33,
                lines: (31, 62),
                parts: 0,
                apart: None,
            }),
            Sort::ShutOff => self.shut_off(),
            Sort::Clause(clause) => self.clause(clause, Size::small),
            Sort::ClauseLargest(clause) => self.clause(clause, |_| Size::LARGEST),
            Sort::Damaged(damage) => self.damaged(damage),
            Sort::RefusedMove(at) => self.refused_move(at),
            Sort::Growing => self.walked(Size::small, 80, Taste::GROWING),
            Sort::Lively => self.walked(Size::lively, 400, Taste::LIVELY),
            Sort::LongRun => self.walked(|_| Size::LARGEST, 400, Taste::PLAIN),
            Sort::Stamps => self.stamps(),
            Sort::Spoilt(spoiling) => self.spoilt(spoiling),
            Sort::Odd(oddity) => self.odd(oddity),
            Sort::Room => self.room(),
        }
    }

    /// A case of an accepted pair with moves from the start.
    fn plain(&mut self, model: &Model, estimate: &Estimate, moves: usize, taste: Taste) -> Case {
        let moves = walk::walk(self.rng, model, &mut walk::start(model), moves, taste);
        Case {
            sort: String::new(),
            model: crate::write::Draft::of(model).image(),
            estimate: estimate.image(model.boxes().len()),
            moves,
            words: None,
        }
    }

    fn walked(&mut self, size: impl Fn(&mut Rng) -> Size, moves: usize, taste: Taste) -> Case {
        let size = size(self.rng);
        let model = random::model(self.rng, size);
        let estimate = random::accepted(self.rng, &model);
        self.plain(&model, &estimate, moves, taste)
    }

    fn sized(&mut self, size: impl Fn(&mut Rng) -> Size) -> Case {
        let moves = self.rng.between(0, 60);
        self.walked(size, moves, Taste::PLAIN)
    }

    fn shut_off(&mut self) -> Case {
        for _ in 0..TRIES {
            let size = Size { apart: Some(0), boxes: 3, ..any_size(self.rng) };
            let model = random::model(self.rng, size);
            let estimate = crate::least::least(&model);
            if crate::clauses::shut_off(&model, &estimate, 0) {
                return self.plain(&model, &estimate, 30, Taste::PLAIN);
            }
        }
        let model = crafted::model("free x z c d box site x {c} 0 box site z {d} 0");
        let estimate = crate::least::least(&model);
        self.plain(&model, &estimate, 4, Taste::PLAIN)
    }

    fn clause(&mut self, clause: u8, size: impl Fn(&mut Rng) -> Size) -> Case {
        for _ in 0..TRIES {
            let size = size(self.rng);
            let model = random::model(self.rng, size);
            let estimate = random::accepted(self.rng, &model);
            if let Some(short) = random::broken_at(self.rng, &model, &estimate, clause) {
                return self.plain(&model, &short, 5, Taste::PLAIN);
            }
        }
        let model = crafted::model(EVERY_CLAUSE);
        let least = crate::least::least(&model);
        let short = random::broken_at(self.rng, &model, &least, clause);
        self.plain(&model, &short.unwrap_or(least), 5, Taste::PLAIN)
    }

    /// A damaged case: its model or its estimate is refused.
    fn damaged(&mut self, damage: &Damage) -> Case {
        loop {
            let size = any_size(self.rng);
            let model = random::model(self.rng, size);
            let estimate = random::accepted(self.rng, &model);
            let mut case = self.plain(&model, &estimate, 3, Taste::PLAIN);
            let mut pair = Pair { model: case.model, estimate: case.estimate };
            if damage.make(self.rng, &model, &mut pair).is_some() {
                (case.model, case.estimate) = (pair.model, pair.estimate);
                return case;
            }
        }
    }

    /// A walk that ends with a move refused with this number.
    fn refused_move(&mut self, at: usize) -> Case {
        let number = REFUSED_MOVES[at].number;
        for _ in 0..TRIES {
            let size = any_size(self.rng);
            let model = random::model(self.rng, size);
            let mut words = walk::start(&model);
            let mut moves = walk::walk(self.rng, &model, &mut words, 24, Taste::PLAIN);
            let mut last = walk::candidates(&model, &words);
            last.push(walk::any_move(self.rng, &model));
            let refused = |mv: &Move| {
                walk::answer(&model, &words, *mv).is_err_and(|cause| cause.number() == number)
            };
            last.retain(refused);
            if let Some(mv) = self.rng.pick(&last) {
                moves.push(mv);
                let estimate = random::accepted(self.rng, &model);
                return Case { moves, ..self.plain(&model, &estimate, 0, Taste::PLAIN) };
            }
        }
        self.crafted_move(at)
    }

    fn crafted_move(&mut self, at: usize) -> Case {
        let refused = &REFUSED_MOVES[at];
        let model = crafted::model(refused.text);
        let estimate = random::accepted(self.rng, &model);
        let mut words = walk::start(&model);
        words[0] = refused.stamp;
        let plain = self.plain(&model, &estimate, 0, Taste::PLAIN);
        Case { moves: refused.moves(), words: Some(words), ..plain }
    }

    fn walked_words(&mut self) -> (Model, Vec<u32>) {
        let size = any_size(self.rng);
        let model = random::model(self.rng, size);
        let words = walked_words(self.rng, &model);
        (model, words)
    }

    /// A case that begins with these words.
    fn with_words(&mut self, model: &Model, words: Vec<u32>, moves: Vec<Move>) -> Case {
        let estimate = random::accepted(self.rng, model);
        let plain = self.plain(model, &estimate, 0, Taste::PLAIN);
        Case { moves, words: Some(words), ..plain }
    }

    /// A run in which a box's stamps come to their end.
    fn stamps(&mut self) -> Case {
        for _ in 0..TRIES {
            let (model, mut words) = self.walked_words();
            for box_no in 0..model.boxes().len() {
                words[box_no * crate::state::RECORD_WORDS] = MAX_STAMP - self.rng.below(3) as u32;
            }
            let begun = words.clone();
            let taste = Taste { allowed: 50, ..Taste::GROWING };
            let moves = walk::walk(self.rng, &model, &mut words, 60, taste);
            let last = |record: &[u32]| record[0] == MAX_STAMP;
            if words.chunks(crate::state::RECORD_WORDS).any(last) && begun != words {
                return self.with_words(&model, begun, moves);
            }
        }
        let spent = REFUSED_MOVES.iter().position(|refused| refused.stamp > 0);
        self.crafted_move(spent.expect("a case of the last stamp"))
    }

    fn spoilt(&mut self, spoiling: &Change) -> Case {
        loop {
            let (model, mut words) = self.walked_words();
            if spoiling.make(self.rng, &model, &mut words) {
                let moves = vec![walk::any_move(self.rng, &model)];
                return self.with_words(&model, words, moves);
            }
        }
    }

    fn odd(&mut self, oddity: &Change) -> Case {
        loop {
            let (model, mut words) = self.walked_words();
            if oddity.make(self.rng, &model, &mut words) {
                let begun = words.clone();
                let moves = walk::walk(self.rng, &model, &mut words, 20, Taste::PLAIN);
                return self.with_words(&model, begun, moves);
            }
        }
    }

    fn room(&mut self) -> Case {
        let (model, mut words) = self.walked_words();
        let lengths = [0, 1, 1_139, 9_111, 9_113, 10_251];
        words.resize(lengths[self.rng.below(lengths.len())], 0);
        let moves = vec![walk::any_move(self.rng, &model)];
        self.with_words(&model, words, moves)
    }
}
