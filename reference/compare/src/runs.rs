//! Runs over lists of moves: the answer, the answers of the moves and the words, where lent buffers fit and where they do not.

use bm::Move;
use bm::cases::odd::ODDITIES;
use bm::cases::rng::Rng;
use bm::cases::spoil::SPOILINGS;
use bm::cases::walk::{self, Taste};
use bm::cases::walked_words;

use crate::lent::Lent;
use crate::report::{Part, Report};
use crate::walks::{self, Subject};

const RUNS: Part = Part { name: "runs", number: 6 };
/// How many runs there are, a case, and the most moves of a list.
const A_CASE: u64 = 3;
const MOVES: usize = 80;

/// What a run is lent.
pub const LENDINGS: [&str; 7] = [
    "all that it needs",
    "an empty list",
    "one answer fewer",
    "one answer more",
    "a word fewer",
    "a word more",
    "a spoilt state",
];

/// A list of moves on a state, and how many answers are lent.
struct List {
    words: Vec<u32>,
    moves: Vec<Move>,
    room: usize,
}

impl List {
    fn new(rng: &mut Rng, subject: &Subject, words: Vec<u32>) -> List {
        let taste = [Taste::PLAIN, Taste::LIVELY, Taste::GROWING][rng.below(3)];
        let count = rng.between(1, MOVES);
        let moves = walk::walk(rng, &subject.model, &mut words.clone(), count, taste);
        List { room: moves.len(), words, moves }
    }

    /// Has the run lent something else; false where the state has no place for it.
    fn lend(&mut self, rng: &mut Rng, subject: &Subject, lending: usize) -> bool {
        match lending {
            1 => (self.moves, self.room) = (Vec::new(), 0),
            2 => self.room -= 1,
            3 => self.room += 1,
            4 => self.words.truncate(self.words.len() - 1),
            5 => self.words.push(0),
            6 => {
                let spoiling = &SPOILINGS[rng.below(SPOILINGS.len())];
                return spoiling.make(rng, &subject.model, &mut self.words);
            }
            _ => {}
        }
        true
    }
}

/// A model and its start, or a state that a walk left; sometimes made odd.
fn some_state(rng: &mut Rng) -> (Subject, Vec<u32>) {
    let subject = Subject::new(walks::some_model(rng));
    let walked = rng.percent(50);
    let mut words =
        if walked { walked_words(rng, &subject.model) } else { walk::start(&subject.model) };
    if rng.percent(30) {
        let oddity = &ODDITIES[rng.below(ODDITIES.len())];
        oddity.make(rng, &subject.model, &mut words);
    }
    (subject, words)
}

pub fn compare(report: &mut Report) {
    for number in 0..A_CASE * report.plan.cases {
        let mut rng = report.begin(RUNS, number);
        let (subject, words) = some_state(&mut rng);
        let lending = if rng.percent(40) { 0 } else { rng.below(LENDINGS.len()) };
        let mut list = List::new(&mut rng, &subject, words);
        if list.lend(&mut rng, &subject, lending) {
            report.tally.runs.lent.add(lending);
        }
        let List { words, moves, room } = list;
        let _ = Lent::new(words).run(&subject.image, &moves, room, report);
    }
}
