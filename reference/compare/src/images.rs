//! Generated pairs of images and damaged ones: the readers, the checker, the question and the refused block; then start, step and run
//! on a lent state, which a refused model leaves as it was.

use bm::block::BLOCK;
use bm::cases::rng::Rng;
use bm::cases::walk;
use bm::cases::{self, Case};
use bm::state::STATE_WORDS;
use bm::{Estimate, Model, Move, ShutOff, Verdict, calls};

use crate::damage::DamagedPair;
use crate::lent::Lent;
use crate::report::{Part, Report};
use crate::tally::Verdicts;
use crate::{hiding, names, packing, proved};

const GENERATED: Part = Part { name: "generated", number: 2 };
const DAMAGED: Part = Part { name: "damaged", number: 3 };

/// How many cases of the comparison go to one generated pair, and how many damaged pairs to one case.
const CASES_A_PAIR: u64 = 5;
const DAMAGED_A_CASE: u64 = 12;
/// The lengths of the buffers that are lent for a refused block.
const ROOMS: [usize; 4] = [BLOCK, BLOCK + 1, 0, BLOCK - 1];
/// How many generated pairs are damaged.
const POOL: u64 = 2_000;

fn compare_refused_block(report: &mut Report, model: &[u8], estimate: &[u8], room: usize) {
    let (mut proved, mut rust) = (vec![7; room], vec![7; room]);
    let copied = proved::copy_refused_block(model, estimate, &mut proved);
    let right = packing::copied(calls::refused_block(model, estimate), &mut rust);
    let what = || format!("refused block into {room} bytes: {copied:#x}, not {right:#x}");
    report.call((copied, proved) == (right, rust), what);
}

/// Compares the calls on two images: the verdict, and the answer to the question.
fn compare_pair(report: &mut Report, model: &[u8], estimate: &[u8], h: u32) -> (Verdict, ShutOff) {
    let checked = calls::check(model, estimate);
    let asked = calls::shut_off(model, estimate, h as usize);
    compare_refused_block(report, model, estimate, ROOMS[h as usize % ROOMS.len()]);
    let mut call = |what: &str, proved: u64, rust: u64| {
        report.call(proved == rust, || format!("{what}: proved {proved:#x}, Rust {rust:#x}"));
    };
    call("read model", proved::read_model(model), packing::read(Model::read(model)));
    let read = calls::read_estimate(model, estimate);
    call("read estimate", proved::read_estimate(model, estimate), packing::verdict(read));
    call("refused block", proved::refused_block(model, estimate), packing::refused_block(checked));
    call("check", proved::check(model, estimate), packing::verdict(checked));
    call("shut off", proved::shut_off(model, estimate, h), packing::question(asked));
    (checked, asked)
}

/// Notes of an estimate that was checked what clauses 8 and 9 would answer if they asked for more. Where a clause is broken, holds the
/// missing name to the sets that it asks for, and notes where another order would give another.
fn note_clauses(report: &mut Report, model: &[u8], estimate: &[u8], verdict: Verdict) {
    let broken = match verdict {
        Verdict::Accepted => None,
        Verdict::Broken(broken) => Some(broken),
        Verdict::RefusedModel(_) | Verdict::RefusedEstimate(_) => return,
    };
    let model = Model::read(model).expect("a model that was checked");
    let estimate = Estimate::read(&model, estimate).expect("an estimate that was checked");
    let Verdicts { hiding, names, .. } = &mut report.tally.verdicts;
    if let Some(at) = hiding::outcome(&model, &estimate, broken) {
        hiding.add(at);
    }
    let Some(broken) = broken else { return };
    let (name, standings) = names::standing(&model, &estimate, broken);
    assert_eq!(name, Some(broken.missing), "the Rust implementation's own name");
    standings.into_iter().for_each(|at| names.add(at));
}

/// Compares the calls on two images, and notes what the clauses say of them.
pub fn compare_clauses(report: &mut Report, model: &[u8], estimate: &[u8]) {
    let (verdict, _) = compare_pair(report, model, estimate, 0);
    note_clauses(report, model, estimate, verdict);
}

/// The state with which a case begins: its own words, or what a start writes.
fn begun(report: &mut Report, rng: &mut Rng, case: &Case) -> Lent {
    match &case.words {
        Some(words) => Lent::new(words.clone()),
        None => Lent::started(report, rng, &case.model),
    }
}

/// Compares generated cases as they are: their images, then each step of their moves, then the run of all of them.
fn compare_generated(report: &mut Report) {
    let seed = GENERATED.seed(report.plan);
    for number in 0..report.plan.cases.div_ceil(CASES_A_PAIR) {
        let mut rng = report.begin(GENERATED, number);
        let case = cases::case(seed, number);
        for h in [0, 1, 7, 8, u32::MAX] {
            let _ = compare_pair(report, &case.model, &case.estimate, h);
        }
        let mut lent = begun(report, &mut rng, &case);
        let mut again = Lent::new(lent.words().to_vec());
        for mv in &case.moves {
            let _ = lent.step(&case.model, *mv, report);
        }
        let _ = again.run(&case.model, &case.moves, case.moves.len(), report);
    }
}

/// A pair to be damaged, and a state that its moves left.
struct Pooled {
    case: Case,
    words: Vec<u32>,
    accepted: bool,
}

impl Pooled {
    fn new(case: Case) -> Pooled {
        let accepted = calls::check(&case.model, &case.estimate) == Verdict::Accepted;
        let mut words = case.words.clone().unwrap_or_else(|| {
            Model::read(&case.model)
                .map_or_else(|_| vec![0; STATE_WORDS], |model| walk::start(&model))
        });
        let _ = calls::run(&case.model, &mut words, &case.moves, &mut vec![0; case.moves.len()]);
        Pooled { case, words, accepted }
    }

    fn some_move(&self, rng: &mut Rng) -> Move {
        rng.pick(&self.case.moves).unwrap_or(Move::new([0; 5]))
    }
}

/// Mostly a box that the estimate's length allows.
fn some_box(rng: &mut Rng, case: &Case) -> u32 {
    let boxes = case.estimate.len() / BLOCK / 2;
    let limit = if rng.percent(80) { boxes.max(1) } else { 9 };
    rng.below(limit) as u32
}

/// Compares damaged pairs, which come mostly from accepted ones.
fn compare_damaged(report: &mut Report) {
    let seed = DAMAGED.seed(report.plan);
    let pool: Vec<Pooled> =
        (0..POOL).map(|number| Pooled::new(cases::case(seed, number))).collect();
    let sound: Vec<&Pooled> = pool.iter().filter(|pooled| pooled.accepted).collect();
    for number in 0..DAMAGED_A_CASE * report.plan.cases {
        let mut rng = report.begin(DAMAGED, number);
        let any = rng.percent(10);
        let pooled = if any { &pool[rng.below(pool.len())] } else { sound[rng.below(sound.len())] };
        let (h, mv) = (some_box(&mut rng, &pooled.case), pooled.some_move(&mut rng));
        let pair = DamagedPair::damaged(rng, &pooled.case.model, &pooled.case.estimate);
        let (checked, asked) = compare_pair(report, &pair.model, &pair.estimate, h);
        report.tally.verdicts.note(checked, asked);
        note_clauses(report, &pair.model, &pair.estimate, checked);
        let mut lent = Lent::new(pooled.words.clone());
        let _ = lent.step(&pair.model, mv, report);
        let _ = lent.run(&pair.model, &[mv, mv], 2, report);
        lent.start(&pair.model, report);
    }
}

pub fn compare(report: &mut Report) {
    compare_generated(report);
    compare_damaged(report);
}
