//! Times of the reference implementation. Nothing here is a test: the times
//! are printed, not judged.
//!
//! `bench` takes about a fifth of a second an item, `bench --quick` a
//! hundredth.

#![forbid(unsafe_code)]

use std::hint::black_box;
use std::time::{Duration, Instant};

use bm::block::{self, BLOCK};
use bm::cases::k;
use bm::cases::random::{self, Size};
use bm::cases::rng::Rng;
use bm::cases::walk::{self, Taste};
use bm::estimate::Estimate;
use bm::least::least;
use bm::names::NameSet;
use bm::state::{self, STATE_WORDS};
use bm::step::Session;
use bm::write::Draft;
use bm::{Model, Move, calls, clauses};

/// Times one thing after the other.
struct Bench {
    each: Duration,
}

impl Bench {
    /// Prints the time of a call; `bytes` is what it goes through.
    fn time<T>(&self, name: &str, bytes: usize, mut call: impl FnMut() -> T) {
        let mut calls = 1u32;
        let spent = loop {
            let start = Instant::now();
            for _ in 0..calls {
                black_box(call());
            }
            let spent = start.elapsed();
            if spent >= self.each || calls > 1 << 28 {
                break spent;
            }
            calls *= 2;
        };
        let nanos = spent.as_nanos() as f64 / f64::from(calls);
        let speed = if bytes == 0 {
            String::new()
        } else {
            format!("{:10.1} MB/s", bytes as f64 / nanos * 1_000.0)
        };
        println!("{name:<44} {nanos:12.1} ns {speed}");
    }
}

/// A model with an estimate and moves.
struct Subject {
    name: &'static str,
    image: Vec<u8>,
    model: Model,
    estimate: Estimate,
    estimate_image: Vec<u8>,
    moves: Vec<Move>,
}

impl Subject {
    fn new(name: &'static str, draft: &Draft, moves: usize) -> Subject {
        let image = draft.image();
        let model = Model::read(&image).expect("an accepted model");
        let estimate = least(&model);
        let mut rng = Rng::new(1);
        let moves = walk::walk(&mut rng, &model, &mut walk::start(&model), moves, Taste::LIVELY);
        let estimate_image = estimate.image(model.boxes().len());
        Subject { name, image, model, estimate, estimate_image, moves }
    }

    /// The same with every set full.
    fn full(mut self, name: &'static str) -> Subject {
        let listed: NameSet = self.model.listed();
        random::sets(&self.model, &mut self.estimate).for_each(|set| *set = listed);
        self.estimate_image = self.estimate.image(self.model.boxes().len());
        self.name = name;
        self
    }
}

fn subjects() -> Vec<Subject> {
    let mut rng = Rng::new(3);
    let typical = Size { names: 36, boxes: 4, lines: (40, 40), ..Size::typical(&mut rng) };
    let typical = random::draft(&mut rng, typical);
    let lively = Size { boxes: 4, parts: 6, ..Size::lively(&mut rng) };
    let lively = random::draft(&mut rng, lively);
    let largest = random::draft(&mut rng, Size::LARGEST);
    vec![
        Subject::new("K", &k::model(), 8),
        Subject::new("typical", &typical, 100),
        Subject::new("lively", &lively, 400),
        Subject::new("largest", &largest, 400),
        Subject::new("largest", &largest, 400).full("largest, full sets"),
    ]
}

fn time_block(bench: &Bench) {
    let image: Vec<u8> = (0..BLOCK * 64).map(|at| (at * 31) as u8).collect();
    let (blocks, _) = image.as_chunks::<BLOCK>();
    bench.time("block check, 64 blocks", image.len(), || {
        blocks.iter().map(block::check).fold(0, u64::wrapping_add)
    });
}

fn time_checks(bench: &Bench, subject: &Subject) {
    let Subject { name, image, model, estimate, estimate_image, .. } = subject;
    bench.time(&format!("read model: {name}"), image.len(), || Model::read(black_box(image)));
    bench.time(&format!("read estimate: {name}"), estimate_image.len(), || {
        Estimate::read(black_box(model), black_box(estimate_image))
    });
    bench.time(&format!("clauses alone: {name}"), 0, || {
        clauses::check(black_box(model), black_box(estimate))
    });
    bench.time(&format!("check both images: {name}"), image.len() + estimate_image.len(), || {
        calls::check(black_box(image), black_box(estimate_image))
    });
    bench.time(&format!("shut off, both images: {name}"), 0, || {
        calls::shut_off(black_box(image), black_box(estimate_image), 0)
    });
}

fn time_moves(bench: &Bench, subject: &Subject) {
    let Subject { name, image, model, moves, .. } = subject;
    let start = walk::start(model);
    let mut words = vec![0; STATE_WORDS];
    bench.time(&format!("start from the image: {name}"), 0, || calls::start(image, &mut words));
    bench.time(&format!("state rules: {name}"), 4 * STATE_WORDS, || {
        state::keeps_rules(model, state::records(black_box(&start)).expect("a state"))
    });
    words.copy_from_slice(&start);
    let refused = Move::new([0; 5]);
    bench.time(&format!("step from the image, refused: {name}"), 0, || {
        calls::step(image, &mut words, black_box(refused))
    });
    let mut answers = vec![0; moves.len()];
    bench.time(&format!("run of {} from the image: {name}", moves.len()), 0, || {
        words.copy_from_slice(&start);
        calls::run(image, &mut words, moves, &mut answers)
    });
    bench.time(&format!("{} steps alone: {name}", moves.len()), 0, || {
        words.copy_from_slice(&start);
        let mut session = Session::open(model, &mut words).expect("a state");
        moves.iter().filter(|mv| session.step(**mv).is_ok()).count()
    });
}

fn main() {
    let quick = std::env::args().any(|arg| arg == "--quick");
    let bench = Bench { each: Duration::from_millis(if quick { 10 } else { 200 }) };
    time_block(&bench);
    let subjects = subjects();
    subjects.iter().for_each(|subject| time_checks(&bench, subject));
    let runs = subjects.iter().filter(|subject| !subject.name.contains("full"));
    runs.for_each(|subject| time_moves(&bench, subject));
}
