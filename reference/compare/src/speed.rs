//! Times of the proved calls and of the Rust ones on the same images.

use std::hint::black_box;

use bm::block::{self, BLOCK, WORDS};
use bm::cases::k;
use bm::cases::random::{self, Size};
use bm::cases::rng::Rng;
use bm::least::least;
use bm::model::{Line, LineNo, Site};
use bm::write::{Draft, DraftBox, put_word};
use bm::{Estimate, Model, NameKind, NameNo, NameSet, Verdict, calls, clauses};

use crate::proved;
use crate::timing::{self, Measured};

/// A model and an estimate, as images.
#[derive(Clone)]
struct Pair {
    name: String,
    model: Vec<u8>,
    estimate: Vec<u8>,
}

impl Pair {
    fn verdict(&self) -> Verdict {
        calls::check(&self.model, &self.estimate)
    }

    fn bench_read(&self, measured: &mut Measured) {
        let Pair { name, model, estimate } = self;
        let times = timing::both(
            || proved::read_model(black_box(model)),
            || Model::read(black_box(model)).is_ok(),
        );
        measured.note(format!("read model: {name}"), times);
        let times = timing::both(
            || proved::read_estimate(black_box(model), black_box(estimate)),
            || calls::read_estimate(black_box(model), black_box(estimate)),
        );
        measured.note(format!("read estimate: {name}"), times);
    }

    fn bench_refused_block(&self, measured: &mut Measured, what: &str) {
        let Pair { name, model, estimate } = self;
        let times = timing::both(
            || proved::refused_block(black_box(model), black_box(estimate)),
            || calls::refused_block(black_box(model), black_box(estimate)),
        );
        measured.note(format!("refused block, {what}: {name}"), times);
    }

    /// The pair with a word past the names of the estimate's last block: no refusal of a block comes later.
    fn refused_late(&self) -> Pair {
        let Pair { name, model, mut estimate } = self.clone();
        let last = estimate.last_chunk_mut::<BLOCK>().expect("an image of blocks");
        put_word(last, WORDS - 1, 1);
        block::seal(last);
        assert_eq!(calls::refused_block(&model, &estimate), &estimate[estimate.len() - BLOCK..]);
        Pair { name, model, estimate }
    }

    fn bench_calls(&self, measured: &mut Measured) {
        let Pair { name, model, estimate } = self;
        let times = timing::both(
            || proved::check(black_box(model), black_box(estimate)),
            || calls::check(black_box(model), black_box(estimate)),
        );
        measured.note(format!("check: {name}"), times);
        let times = timing::both(
            || proved::shut_off(black_box(model), black_box(estimate), 0),
            || calls::shut_off(black_box(model), black_box(estimate), 0),
        );
        measured.note(format!("shut off: {name}"), times);
    }
}

/// An accepted pair: the model's least estimate, changed.
fn accepted(
    name: &str,
    draft: &Draft,
    change: impl FnOnce(&Model, &mut Estimate),
) -> (Pair, Model, Estimate) {
    let image = draft.image();
    let model = Model::read(&image).expect("an accepted model");
    let mut estimate = least(&model);
    change(&model, &mut estimate);
    let stored = estimate.image(model.boxes().len());
    let pair = Pair { name: name.to_string(), model: image, estimate: stored };
    assert_eq!(pair.verdict(), Verdict::Accepted, "{name}");
    (pair, model, estimate)
}

/// An accepted pair, and the same broken late.
fn pairs(name: &str, draft: &Draft, change: impl FnOnce(&Model, &mut Estimate)) -> [Pair; 2] {
    let (pair, model, estimate) = accepted(name, draft, change);
    let broken = Pair {
        name: format!("{name}, broken late"),
        estimate: broken_late(&model, &estimate).image(model.boxes().len()),
        ..pair.clone()
    };
    [pair, broken]
}

/// The estimate less one member, the lowest or highest of a set, such that the first broken clause comes as late as can be.
fn broken_late(model: &Model, estimate: &Estimate) -> Estimate {
    let count = random::sets(model, &mut estimate.clone()).count();
    let tries = (0..count).flat_map(|at| [(at, true), (at, false)]);
    let short = tries.filter_map(|(at, lowest)| {
        let mut short = estimate.clone();
        let set = random::sets(model, &mut short).nth(at)?;
        let member = if lowest { set.lowest() } else { set.into_iter().last() };
        *set = set.without(member?);
        let broken = clauses::check(model, &short).err()?;
        Some((broken.box_no, broken.record, short))
    });
    let latest = short.max_by_key(|(box_no, record, _)| (*box_no, *record));
    latest.expect("a member that a clause asks for").2
}

/// The largest model, with a restriction late in the last box.
fn largest(rng: &mut Rng) -> Draft {
    let mut draft = random::draft(rng, Size { names: 59, ..Size::LARGEST });
    draft.kinds.push(NameKind::Restricted);
    let lines = draft.boxes.last_mut().into_iter().flat_map(|def| def.lines.iter_mut().rev());
    for line in lines {
        if let Line::Output { next, .. } = *line {
            *line = Line::Restrict { name: NameNo(59), next };
            break;
        }
    }
    draft
}

/// Every set full.
fn full(model: &Model, estimate: &mut Estimate) {
    let listed = model.listed();
    random::sets(model, estimate).for_each(|set| *set = listed);
}

/// The names that the types of a box may have: every box has some free names of its own.
fn share(free: NameSet, boxes: usize, box_no: usize) -> NameSet {
    free.into_iter().skip(box_no).step_by(boxes).collect()
}

/// The draft with types of each box from its own share, and restrictions instead of exposes, whose types would be as wide as rho.
fn types_apart(mut draft: Draft) -> Draft {
    let free = |at: &usize| draft.kinds[*at] == NameKind::Free;
    let free: NameSet = (0..draft.kinds.len()).filter(free).map(|at| NameNo(at as u8)).collect();
    let exposed = draft.kinds.iter_mut().filter(|kind| **kind == NameKind::Exposed);
    exposed.for_each(|kind| *kind = NameKind::Restricted);
    let boxes = draft.boxes.len();
    for (box_no, def) in draft.boxes.iter_mut().enumerate() {
        let share = share(free, boxes, box_no);
        for site in &mut def.sites {
            site.ty = share.without(site.subject);
        }
        for line in &mut def.lines {
            if let Line::Expose { name, next, .. } = *line {
                *line = Line::Restrict { name, next };
            }
        }
    }
    draft
}

/// Every set full, but eps of each box only its share.
fn full_apart(model: &Model, estimate: &mut Estimate) {
    full(model, estimate);
    let boxes = model.boxes().len();
    for (box_no, sets) in estimate.boxes[..boxes].iter_mut().enumerate() {
        sets.eps[..model.kinds().len()].fill(share(model.free(), boxes, box_no));
    }
}

/// Eight boxes, eight free names, one the subject of each box and the type of another; outputs, and at the end 52 inputs in all.
fn most_inputs() -> Draft {
    let kinds = (0..60).map(|at| if at < 8 { NameKind::Free } else { NameKind::Received });
    let boxes = (0..8).map(|box_no| {
        let (on, other) = (NameNo(box_no), NameNo((box_no + 1) % 8));
        let received: Vec<NameNo> = (8 + box_no..60).step_by(8).map(NameNo).collect();
        let outputs = 123 - received.len();
        let mut lines: Vec<Line> =
            (0..outputs).map(|at| Line::Output { on, of: other, next: after(at) }).collect();
        let inputs = received.into_iter().enumerate();
        lines.extend(inputs.map(|(at, into)| Line::Input { on, into, next: after(outputs + at) }));
        lines.push(Line::Nil);
        DraftBox {
            sites: vec![Site { subject: on, hidden: false, ty: NameSet::one(other) }],
            lines,
        }
    });
    Draft { kinds: kinds.collect(), boxes: boxes.collect() }
}

fn after(line: usize) -> LineNo {
    LineNo(line as u16 + 1)
}

/// Nearly every set full, but types apart, and no box sends or receives its own subject: so each input asks about every two shown
/// names of two boxes.
fn nearly_full(model: &Model, estimate: &mut Estimate) {
    full(model, estimate);
    for (box_no, def) in model.boxes().iter().enumerate() {
        let Site { subject, ty, .. } = def.sites()[0];
        let others = model.listed().without(subject);
        let alike = model.listed().into_iter().filter(|name| ty.has(NameNo(name.0 % 8)));
        estimate.boxes[box_no].eps.fill(alike.collect());
        estimate.boxes[box_no].kap.fill(others);
        let bound = def.lines().iter().filter_map(|line| line.bound());
        bound.chain(ty).for_each(|name| estimate.rho[name.index()] = others);
    }
}

/// A typical model.
fn typical(rng: &mut Rng) -> Draft {
    let size = Size { names: 36, boxes: 4, lines: (40, 40), ..Size::typical(rng) };
    random::draft(rng, size)
}

/// A typical model and the largest one.
pub fn typical_and_largest() -> (Draft, Draft) {
    let mut rng = Rng::new(3);
    let typical = typical(&mut rng);
    (typical, largest(&mut rng))
}

/// How many models are read in turn. Where one image is read again and again the processor learns its branches.
const IN_TURN: usize = 32;

/// Times of reading and checking accepted pairs that differ, one after another: for each of them.
fn bench_in_turn(measured: &mut Measured, name: &str, draft: fn(&mut Rng) -> Draft) {
    let mut rng = Rng::new(5);
    let pairs: Vec<Pair> =
        (0..IN_TURN).map(|_| accepted(name, &draft(&mut rng), |_, _| ()).0).collect();
    let times = timing::both(
        || pairs.iter().fold(0, |all, pair| all | proved::read_model(black_box(&pair.model))),
        || pairs.iter().filter(|pair| Model::read(black_box(&pair.model)).is_ok()).count(),
    );
    measured.note(format!("read model: {name}, {IN_TURN} in turn"), times.each(IN_TURN));
    let check = |pair: &Pair| calls::check(black_box(&pair.model), black_box(&pair.estimate));
    let times = timing::both(
        || {
            let check = |all, pair: &Pair| {
                all | proved::check(black_box(&pair.model), black_box(&pair.estimate))
            };
            pairs.iter().fold(0, check)
        },
        || pairs.iter().filter(|pair| check(pair) == Verdict::Accepted).count(),
    );
    measured.note(format!("check: {name}, {IN_TURN} in turn"), times.each(IN_TURN));
}

fn all_pairs() -> Vec<Pair> {
    let (typical, largest) = typical_and_largest();
    let made = [
        pairs("K", &k::model(), |_, _| ()),
        pairs("typical", &typical, |_, _| ()),
        pairs("largest", &largest, |_, _| ()),
        pairs("largest, full sets", &largest, full),
        pairs("largest, types apart", &types_apart(largest.clone()), full_apart),
        pairs("most inputs", &most_inputs(), nearly_full),
    ];
    made.into_iter().flatten().collect()
}

pub fn bench(measured: &mut Measured) {
    let mut read: Vec<u8> = Vec::new();
    for pair in all_pairs() {
        println!("{}: {}", pair.name, pair.verdict());
        if pair.model != read {
            pair.bench_read(measured);
            pair.bench_refused_block(measured, "none");
            pair.refused_late().bench_refused_block(measured, "the last");
        }
        pair.bench_calls(measured);
        read = pair.model;
    }
    bench_in_turn(measured, "typical", typical);
    bench_in_turn(measured, "largest", largest);
    measured.print_worst();
}
