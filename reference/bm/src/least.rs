//! The least estimate of a model, by adding what the clauses force until
//! nothing is added.

use crate::estimate::Estimate;
use crate::model::{Line, Model};
use crate::names::{NameNo, NameSet};

/// The estimate that every accepted estimate of the model contains.
pub fn least(model: &Model) -> Estimate {
    least_above(model, Estimate::EMPTY)
}

/// The least accepted estimate that contains the given members, which are
/// names of the model.
pub fn least_above(model: &Model, members: Estimate) -> Estimate {
    let mut estimate = members;
    for name in model.free() {
        add(&mut estimate.rho[name.index()], NameSet::one(name));
    }
    for (box_no, def) in model.boxes().iter().enumerate() {
        let sets = &mut estimate.boxes[box_no];
        for site in def.sites() {
            let iota = if site.hidden { &mut sets.hidden } else { &mut sets.shown };
            add(iota, NameSet::one(site.subject));
            add(&mut sets.eps[site.subject.index()], site.ty);
        }
    }
    loop {
        let before = estimate.clone();
        for (box_no, def) in model.boxes().iter().enumerate() {
            def.lines().iter().for_each(|line| add_line(model, &mut estimate, box_no, line));
        }
        if estimate == before {
            return estimate;
        }
    }
}

fn add(set: &mut NameSet, more: NameSet) {
    *set = set.union(more);
}

/// Adds what the clauses of one line force.
fn add_line(model: &Model, estimate: &mut Estimate, box_no: usize, line: &Line) {
    match *line {
        Line::Nil | Line::Parallel { .. } | Line::Replicate { .. } => {}
        Line::Restrict { name, .. } => add(&mut estimate.rho[name.index()], NameSet::one(name)),
        Line::Output { on, of, .. } => {
            for a in estimate.rho(on) {
                add(&mut estimate.boxes[box_no].kap[a.index()], estimate.rho[of.index()]);
            }
        }
        Line::Input { on, into, .. } => {
            let arriving = arriving(model, estimate, box_no, on);
            add(&mut estimate.rho[into.index()], arriving);
        }
        Line::Expose { name, ty, .. } => {
            add(&mut estimate.rho[name.index()], NameSet::one(name));
            add(&mut estimate.boxes[box_no].shown, NameSet::one(name));
            for g in ty {
                add(&mut estimate.boxes[box_no].eps[name.index()], estimate.rho[g.index()]);
            }
        }
        Line::Hide { on, .. } => {
            let names = estimate.rho(on);
            let sets = &mut estimate.boxes[box_no];
            add(&mut sets.hidden, names.meet(sets.shown));
        }
        Line::Unhide { on, .. } => {
            let names = estimate.rho(on);
            let sets = &mut estimate.boxes[box_no];
            add(&mut sets.shown, names.meet(sets.hidden));
        }
    }
}

/// What an input on this name may receive from its own box and from others.
fn arriving(model: &Model, estimate: &Estimate, box_no: usize, on: NameNo) -> NameSet {
    let own = &estimate.boxes[box_no];
    let mut arriving = NameSet::EMPTY;
    for a in estimate.rho(on) {
        add(&mut arriving, own.kap(a));
        let others = estimate.boxes[..model.boxes().len()].iter().enumerate();
        let others = others.filter(|(k, _)| *k != box_no && own.shown.has(a));
        for (_, far) in others {
            let fit = far.shown.into_iter().filter(|c| far.eps(*c).shares(own.eps(a)));
            fit.for_each(|c| add(&mut arriving, far.kap(c)));
        }
    }
    arriving
}
