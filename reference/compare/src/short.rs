//! Estimates in which several sets are short at once, so that the order in which a clause asks for them decides which name is missing;
//! and such in which the names that a line may hide or show are shown, hidden, both or neither.

use bm::cases::random::{self, Size};
use bm::cases::rng::Rng;
use bm::cases::walls;
use bm::estimate::BoxSets;
use bm::model::Line;
use bm::{Estimate, Model, NameNo, NameSet};

use crate::images;
use crate::report::{Part, Report};

const SHORT: Part = Part { name: "short estimates", number: 7 };
/// How many estimates of a model are tried.
const ESTIMATES: usize = 6;

fn without_some(rng: &mut Rng, set: NameSet, most: usize) -> NameSet {
    let members: Vec<NameNo> = set.into_iter().collect();
    (0..rng.between(1, most))
        .fold(set, |left, _| rng.pick(&members).map_or(left, |name| left.without(name)))
}

fn with_some(rng: &mut Rng, set: NameSet, names: usize, most: usize) -> NameSet {
    (0..rng.between(1, most)).fold(set, |more, _| more.with(NameNo(rng.below(names) as u8)))
}

/// Members taken out of one set or of several.
fn thinned(rng: &mut Rng, model: &Model, estimate: &mut Estimate) {
    let count = random::sets(model, estimate).count();
    let (several, most) = if rng.percent(50) { (1, 6) } else { (rng.between(2, 8), 2) };
    for _ in 0..several {
        let at = rng.below(count);
        let mut full = random::sets(model, estimate).skip(at).filter(|set| set.len() > 1);
        if let Some(set) = full.next() {
            *set = without_some(rng, *set, most);
        }
    }
}

/// What the first expose that there is, after some, asks for: its own name, its place on the wall, its type.
fn exposed(rng: &mut Rng, model: &Model, estimate: &mut Estimate) {
    let lines = model.boxes().iter().enumerate();
    let lines = lines.flat_map(|(box_no, def)| def.lines().iter().map(move |line| (box_no, *line)));
    let exposes: Vec<(usize, NameNo)> = lines
        .filter_map(|(box_no, line)| match line {
            Line::Expose { name, .. } => Some((box_no, name)),
            _ => None,
        })
        .collect();
    let Some((box_no, name)) = rng.pick(&exposes) else { return };
    let BoxSets { shown, eps, .. } = &mut estimate.boxes[box_no];
    eps[name.index()] = without_some(rng, eps[name.index()], 4);
    match rng.below(3) {
        0 => *shown = shown.without(name),
        1 => estimate.rho[name.index()] = estimate.rho(name).without(name),
        _ => {}
    }
}

/// More that boxes after the first may send on shown names, and more shown names that fit.
fn sent_by_others(rng: &mut Rng, model: &Model, estimate: &mut Estimate) {
    let names = model.kinds().len();
    let walls = estimate.boxes[0].shown.into_iter().map(|name| estimate.boxes[0].eps(name));
    let types = walls.fold(NameSet::EMPTY, NameSet::union);
    for sets in &mut estimate.boxes[1..model.boxes().len()] {
        if rng.percent(60) {
            sets.shown = with_some(rng, sets.shown, names, 3);
        }
        for name in sets.shown {
            let (eps, kap) = (&mut sets.eps[name.index()], &mut sets.kap[name.index()]);
            *kap = with_some(rng, *kap, names, 3);
            if rng.percent(70) {
                *eps = eps.union(types);
            }
        }
    }
}

pub fn compare(report: &mut Report) {
    for number in 0..report.plan.cases {
        let mut rng = report.begin(SHORT, number);
        let size = Size::lively(&mut rng);
        let draft = random::draft(&mut rng, size);
        let image = draft.image();
        let model = Model::read(&image).expect("a model that is drawn");
        let accepted = random::accepted(&mut rng, &model);
        let wide = walls::widened(&mut rng, &model, &accepted);
        for _ in 0..ESTIMATES {
            let mut estimate = accepted.clone();
            match rng.below(6) {
                0 => thinned(&mut rng, &model, &mut estimate),
                1 => exposed(&mut rng, &model, &mut estimate),
                2 | 3 => estimate = walls::redrawn(&mut rng, &model, &wide),
                _ => sent_by_others(&mut rng, &model, &mut estimate),
            }
            images::compare_clauses(report, &image, &estimate.image(model.boxes().len()));
        }
    }
}
