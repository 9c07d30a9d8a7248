//! Times of start, step and run. The proved library has no call for the state rules, nor for what a move is answered and makes alone:
//! they are measured as differences, on both sides in the same way. The state rules are a step refused with 12, or with 11 at the
//! state's last thread, less one refused with 10, which reads the model alone. A move is a long run less a shorter one from the same
//! state, over the number of moves between: one that is refused is answered, one that is made is answered and made.

use std::hint::black_box;

use bm::cases::change::Change;
use bm::cases::odd::ODDITIES;
use bm::cases::random::{self, Size};
use bm::cases::rng::Rng;
use bm::cases::walk::{self, Taste};
use bm::cases::{crafted, k};
use bm::state::{RECORD_WORDS, Record, STATE_WORDS, records};
use bm::step::move_kind;
use bm::write::Draft;
use bm::{Model, Move, Refusal, calls};

use crate::timing::{self, Apart, Measured};
use crate::walks::Subject;
use crate::{proved, speed};

/// The lengths of a long list of moves and of a short one.
const LONG: usize = 4_000;
const SHORT: usize = 400;
/// The lengths of the lists that are run as a whole call.
const RUNS: [usize; 2] = [100, 1_000];

/// A model as small as K whose runs do not end.
const SMALL_LASTING: &str = "
    free x z received y free u v c received w
    box site x {c} !x(y).0 | !x<z>.0
    box site u {c} !u<v>.0 | !u(w).0";

/// Moves that are allowed, and so mixed that threads come and go.
const STEADY: Taste = Taste { allowed: 100, growth: 10, crowd: false };

/// A model and one of its states.
pub struct Scene {
    name: &'static str,
    subject: Subject,
    words: Vec<u32>,
}

/// The words that moves on a state change, as they were.
struct Undone(Vec<(usize, u32)>);

impl Undone {
    fn new(scene: &Scene, moves: &[Move]) -> Undone {
        let (after, _) = scene.ran(moves);
        let places = (0..STATE_WORDS).filter(|at| after[*at] != scene.words[*at]);
        Undone(places.map(|at| (at, scene.words[at])).collect())
    }

    fn undo(&self, words: &mut [u32]) {
        self.0.iter().for_each(|(at, word)| words[*at] = *word);
    }
}

impl Scene {
    pub fn new(name: &'static str, model: Model, change: impl FnOnce(&Model, &mut [u32])) -> Scene {
        let mut words = walk::start(&model);
        change(&model, &mut words);
        Scene { name, subject: Subject::new(model), words }
    }

    /// The name of a measurement on this state.
    pub fn named(&self, what: &str) -> String {
        format!("{what}: {}", self.name)
    }

    fn print_size(&self) {
        let (threads, sites) = size(&self.words);
        println!("{}: {threads} threads and {sites} sites", self.name);
    }

    fn bench_start(&self, measured: &mut Measured) {
        let image = self.subject.image.as_slice();
        let (mut one, mut other) = (self.words.clone(), self.words.clone());
        let times = timing::both(
            || proved::start(black_box(image), &mut one),
            || calls::start(black_box(image), &mut other),
        );
        measured.note(self.named("start"), times);
    }

    fn bench_step(&self, measured: &mut Measured, what: &str, mv: Move) {
        let image = self.subject.image.as_slice();
        let undone = Undone::new(self, &[mv]);
        let (mut one, mut other) = (self.words.clone(), self.words.clone());
        let proved = || {
            undone.undo(&mut one);
            proved::step(black_box(image), &mut one, black_box(mv))
        };
        let rust = || {
            undone.undo(&mut other);
            calls::step(black_box(image), &mut other, black_box(mv))
        };
        measured.note(self.named(what), timing::both(proved, rust));
    }

    /// Of the moves that are allowed, one with the most work: through sites, through a channel, a new site or name, else any.
    fn chosen_move(&self) -> Move {
        let allowed = walk::allowed(&self.subject.model, &self.words);
        let order = [move_kind::INTER, move_kind::INTRA, move_kind::EXPOSE, move_kind::NEW];
        let work = |mv: &&Move| order.iter().rev().position(|kind| *kind == mv.kind);
        *allowed.iter().max_by_key(work).expect("a move that is allowed")
    }

    /// A step on these words less a step on none.
    fn bench_rules(&self, measured: &mut Measured, what: &str, words: &[u32]) {
        let (image, mv) = (self.subject.image.as_slice(), Move::new([0; 5]));
        let (mut one, mut other) = (words.to_vec(), words.to_vec());
        let proved = Apart {
            long: || proved::step(black_box(image), &mut one, black_box(mv)),
            short: || proved::step(black_box(image), &mut [], black_box(mv)),
        };
        let rust = Apart {
            long: || calls::step(black_box(image), &mut other, black_box(mv)),
            short: || calls::step(black_box(image), &mut [], black_box(mv)),
        };
        measured.note(self.named(what), timing::difference(proved, rust));
    }

    /// The words with the last thread of the last box at a line that is not there.
    fn spoilt(&self) -> Vec<u32> {
        let mut words = self.words.clone();
        let last = self.subject.model.boxes().len() - 1;
        let threads = Record(&records(&words).expect("a state")[last]).thread_count();
        words[last * RECORD_WORDS + RECORD_WORDS - 61 * (17 - threads)] = u32::MAX;
        words
    }

    fn bench_steps(&self, measured: &mut Measured) {
        self.print_size();
        self.bench_start(measured);
        let made = self.chosen_move();
        self.bench_step(measured, &format!("step, kind {} made", made.kind), made);
        self.bench_step(measured, "step, refused with 12", Move::new([0; 5]));
        self.bench_rules(measured, "state rules, kept", &self.words);
        self.bench_rules(measured, "state rules, broken at the last thread", &self.spoilt());
    }

    /// What a run of this list leaves and answers.
    fn ran(&self, moves: &[Move]) -> (Vec<u32>, Vec<u8>) {
        let (mut words, mut answers) = (self.words.clone(), vec![0; moves.len()]);
        calls::run(&self.subject.image, &mut words, moves, &mut answers).expect("a state in order");
        (words, answers)
    }

    /// What a run of this list is answered.
    pub fn answers(&self, moves: &[Move]) -> Vec<u8> {
        self.ran(moves).1
    }

    /// A run of the proved library, after the words are put back as they were.
    pub fn proved_run(
        &self,
        moves: &[brothmaple::Move],
        put_back: impl Fn(&mut [u32]),
    ) -> impl FnMut() -> u64 {
        let (mut words, mut answers) = (self.words.clone(), vec![0; moves.len()]);
        move || {
            put_back(&mut words);
            let image = black_box(&self.subject.image);
            proved::run(image, &mut words, black_box(moves), &mut answers)
        }
    }

    /// The same of the Rust implementation.
    pub fn rust_run(
        &self,
        moves: &[Move],
        put_back: impl Fn(&mut [u32]),
    ) -> impl FnMut() -> Result<(), Refusal> {
        let (mut words, mut answers) = (self.words.clone(), vec![0; moves.len()]);
        move || {
            put_back(&mut words);
            let image = black_box(&self.subject.image);
            calls::run(image, &mut words, black_box(moves), &mut answers)
        }
    }

    /// Puts every word back: as long for each list.
    pub fn put_back(&self, words: &mut [u32]) {
        words.copy_from_slice(&self.words);
    }

    /// What a move of this list takes in a run from the state.
    fn bench_moves(&self, measured: &mut Measured, what: &str, moves: &[Move]) {
        let list = proved::list(moves);
        let put_back = |words: &mut [u32]| self.put_back(words);
        let proved = Apart {
            long: self.proved_run(&list, put_back),
            short: self.proved_run(&list[..SHORT], put_back),
        };
        let rust = Apart {
            long: self.rust_run(moves, put_back),
            short: self.rust_run(&moves[..SHORT], put_back),
        };
        measured.note(self.named(what), timing::difference(proved, rust).each(moves.len() - SHORT));
    }

    /// What a run of this list takes, as a whole call.
    fn bench_run(&self, measured: &mut Measured, moves: &[Move]) {
        self.print_answers(moves);
        let (list, undone) = (proved::list(moves), Undone::new(self, moves));
        let undo = |words: &mut [u32]| undone.undo(words);
        let times = timing::both(self.proved_run(&list, undo), self.rust_run(moves, undo));
        measured.note(self.named(&format!("run of {} moves", moves.len())), times);
    }

    fn bench_runs(&self, measured: &mut Measured) {
        let model = &self.subject.model;
        for count in RUNS {
            let moves =
                walk::walk(&mut Rng::new(7), model, &mut self.words.clone(), count, Taste::PLAIN);
            self.bench_run(measured, &moves);
        }
    }

    /// The moves that the threads call for and that are refused, in turn.
    fn refused_moves(&self) -> Vec<Move> {
        let model = &self.subject.model;
        let mut moves = walk::candidates(model, &self.words);
        moves.extend([Move::new([0; 5]), Move::new([9, 0, 0, 0, 0]), Move::new([1, 0, 0, 0, 0])]);
        moves.retain(|mv| walk::answer(model, &self.words, *mv).is_err());
        moves.iter().copied().cycle().take(LONG).collect()
    }

    /// Moves that are all made, one after the other.
    fn made_moves(&self) -> Vec<Move> {
        let (model, mut words) = (&self.subject.model, self.words.clone());
        let moves = walk::walk(&mut Rng::new(5), model, &mut words, LONG, STEADY);
        let answers = self.answers(&moves);
        let made = moves.into_iter().zip(answers).filter(|(_, answer)| *answer == 0);
        made.map(|(mv, _)| mv).collect()
    }

    /// Prints how many moves of the list are made of each kind, and how many are refused with 12 to 20.
    fn print_answers(&self, moves: &[Move]) {
        let (mut made, mut refused) = ([0; 9], [0; 9]);
        for (mv, answer) in moves.iter().zip(self.answers(moves)) {
            match answer {
                0 => made[mv.kind as usize - 1] += 1,
                number => refused[usize::from(number) - 12] += 1,
            }
        }
        println!("{}: made 1 to 9 {made:?}, refused with 12 to 20 {refused:?}", self.name);
    }

    fn bench_refused(&self, measured: &mut Measured) {
        let moves = self.refused_moves();
        self.print_answers(&moves);
        self.bench_moves(measured, "a move refused, in a run", &moves);
    }

    fn bench_made(&self, measured: &mut Measured) {
        let moves = self.made_moves();
        self.print_answers(&moves);
        self.bench_moves(measured, "a move made, in a run", &moves);
    }
}

/// How many threads and sites a state has.
fn size(words: &[u32]) -> (usize, usize) {
    let records = records(words).expect("a state").iter().map(Record);
    records.fold((0, 0), |(threads, sites), record| {
        (threads + record.thread_count(), sites + record.site_count())
    })
}

/// The largest of the states of a long walk that still allow a move.
fn far(model: &Model, words: &mut [u32]) {
    let (mut rng, mut state) = (Rng::new(4), words.to_vec());
    let sum = |words: &[u32]| size(words).0 + size(words).1;
    for _ in 0..600 {
        walk::walk(&mut rng, model, &mut state, 1, Taste::GROWING);
        if sum(&state) > sum(words) && !walk::allowed(model, &state).is_empty() {
            words.copy_from_slice(&state);
        }
    }
}

/// As many threads and sites as can be, in each box.
fn full(model: &Model, words: &mut [u32]) {
    far(model, words);
    let rng = &mut Rng::new(6);
    let fill = |change: &&Change| change.name.starts_with("full_of");
    for change in ODDITIES.iter().filter(fill).cycle().take(400) {
        change.make(rng, model, words);
    }
}

pub fn read(draft: &Draft) -> Model {
    Model::read(&draft.image()).expect("an accepted model")
}

/// The start of a random model of replicated parts, whose run is as long as the lists of moves.
fn lasting(name: &'static str, boxes: usize, names: usize) -> Scene {
    let size = Size { names, boxes, sites: 3, lines: (2, 3), parts: 6, apart: None };
    let scenes = (0..).map(|seed| {
        let model = random::model(&mut Rng::new(seed), size);
        Scene::new(name, model, started)
    });
    let mut lasting = scenes.filter(|scene| scene.made_moves().len() == LONG);
    lasting.next().expect("a model whose run does not end")
}

/// The start as it is.
fn started(_: &Model, _: &mut [u32]) {}

pub fn bench(measured: &mut Measured) {
    let (typical, largest) = speed::typical_and_largest();
    let scenes = [
        Scene::new("K", read(&k::model()), started),
        Scene::new("small, far", crafted::model(SMALL_LASTING), far),
        Scene::new("typical, far", read(&typical), far),
        Scene::new("largest, far", read(&largest), far),
        Scene::new("largest, full", read(&largest), full),
    ];
    scenes.iter().for_each(|scene| scene.bench_steps(measured));
    scenes.iter().for_each(|scene| scene.bench_runs(measured));
    scenes.iter().for_each(|scene| scene.bench_refused(measured));
    let scenes = [
        Scene::new("small, lasting", crafted::model(SMALL_LASTING), started),
        lasting("typical, lasting", 4, 40),
        lasting("eight boxes, lasting", 8, 60),
    ];
    scenes.iter().for_each(|scene| scene.bench_runs(measured));
    scenes.iter().for_each(|scene| scene.bench_made(measured));
    measured.print_worst();
}
