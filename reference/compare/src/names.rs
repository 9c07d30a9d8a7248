//! The name that a broken clause misses, among all the sets that the clause asks for at its place.

use bm::model::Line;
use bm::{Broken, Estimate, Model, NameNo, NameSet};

/// How the missing name stands among others that another order would give.
pub const STANDINGS: [&str; 5] = [
    "a higher one in the same set",
    "another in a later set",
    "another by the type, of 2",
    "another by the type, of 7",
    "another by c before k",
];

/// A set that a clause asks for: in clause 6 the names a and c and the box k, otherwise its place in the order; and what it lacks.
struct Asked {
    way: [usize; 3],
    lacking: NameSet,
}

impl Asked {
    fn in_order(lacking: impl IntoIterator<Item = NameSet>) -> Vec<Asked> {
        let asked = lacking.into_iter().enumerate();
        asked.map(|(at, lacking)| Asked { way: [at, 0, 0], lacking }).collect()
    }
}

/// The sets that a clause asks for at its place, in the order in which it speaks of them.
fn asked(model: &Model, estimate: &Estimate, broken: Broken) -> Vec<Asked> {
    let Broken { clause, box_no, record, .. } = broken;
    let own = |name: NameNo, set: NameSet| NameSet::one(name).minus(set);
    let rho = |name: NameNo| estimate.rho(name);
    if clause == 1 {
        let name = NameNo(record as u8);
        return Asked::in_order([own(name, rho(name))]);
    }
    let (def, sets) = (&model.boxes()[box_no], &estimate.boxes[box_no]);
    if clause == 2 {
        let site = &def.sites()[record];
        let wall = if site.hidden { sets.hidden } else { sets.shown };
        return Asked::in_order([own(site.subject, wall), site.ty.minus(sets.eps(site.subject))]);
    }
    match def.lines()[record] {
        Line::Restrict { name, .. } => Asked::in_order([own(name, rho(name))]),
        Line::Output { on, of, .. } => {
            Asked::in_order(rho(on).into_iter().map(|a| rho(of).minus(sets.kap(a))))
        }
        Line::Input { on, into, .. } if clause == 5 => {
            Asked::in_order(rho(on).into_iter().map(|a| sets.kap(a).minus(rho(into))))
        }
        Line::Input { on, into, .. } => partners(model, estimate, box_no, rho(on), rho(into)),
        Line::Expose { name, ty, .. } => {
            let types = ty.into_iter().map(|g| rho(g).minus(sets.eps(name)));
            Asked::in_order([own(name, rho(name)), own(name, sets.shown)].into_iter().chain(types))
        }
        Line::Hide { on, .. } => Asked::in_order([rho(on).meet(sets.shown).minus(sets.hidden)]),
        Line::Unhide { on, .. } => Asked::in_order([rho(on).meet(sets.hidden).minus(sets.shown)]),
        Line::Nil | Line::Parallel { .. } | Line::Replicate { .. } => Vec::new(),
    }
}

/// What clause 6 asks for: a, then k, then c, each ascending.
fn partners(
    model: &Model,
    estimate: &Estimate,
    box_no: usize,
    channels: NameSet,
    into: NameSet,
) -> Vec<Asked> {
    let mut asked = Vec::new();
    let sets = &estimate.boxes[box_no];
    for a in channels.meet(sets.shown) {
        for k in (0..model.boxes().len()).filter(|k| *k != box_no) {
            let far = &estimate.boxes[k];
            let fit = far.shown.into_iter().filter(|c| far.eps(*c).shares(sets.eps(a)));
            asked.extend(fit.map(|c| Asked {
                way: [a.index(), k, c.index()],
                lacking: far.kap(c).minus(into),
            }));
        }
    }
    asked
}

/// The lowest name that the first set short lacks.
fn first<'a>(asked: impl IntoIterator<Item = &'a Asked>) -> Option<NameNo> {
    asked.into_iter().find_map(|one| one.lacking.lowest())
}

/// The name that is missing, found among all sets that are asked for; and at which of [`STANDINGS`] another order gives another name.
pub fn standing(
    model: &Model,
    estimate: &Estimate,
    broken: Broken,
) -> (Option<NameNo>, Vec<usize>) {
    let asked = asked(model, estimate, broken);
    let name = first(&asked);
    let mut short = asked.iter().filter(|one| !one.lacking.is_empty());
    let several = short.next().is_some_and(|one| one.lacking.len() > 1);
    let later = short.any(|one| one.lacking.lowest() != name);
    let another = |found: Option<NameNo>| found.is_some() && found != name;
    let mut by_names: Vec<&Asked> = asked.iter().collect();
    by_names.sort_by_key(|one| [one.way[0], one.way[2], one.way[1]]);
    let holds = [
        several,
        later,
        broken.clause == 2 && another(first(&asked[1..])),
        broken.clause == 7 && another(first(&asked[2..])),
        broken.clause == 6 && another(first(by_names)),
    ];
    (name, (0..STANDINGS.len()).filter(|at| holds[*at]).collect())
}

#[cfg(test)]
mod tests {
    use bm::cases::k;
    use bm::{NameSet, clauses};

    use super::*;

    /// K without z in rho(y) and kap(0,x), and with sets that another order would name first.
    #[test]
    fn another_order_gives_another_name() {
        let model = Model::read(&k::model().image()).unwrap();
        let stands = |change: &dyn Fn(&mut Estimate)| {
            let mut estimate = k::estimate();
            change(&mut estimate);
            let broken = clauses::check(&model, &estimate).unwrap_err();
            let (name, at) = standing(&model, &estimate, broken);
            assert_eq!(name, Some(broken.missing));
            (broken.to_string(), at)
        };
        let one = |e: &mut Estimate| e.rho[2] = NameSet::one(NameNo(4));
        assert_eq!(stands(&one), ("clause 5 0 1 1".to_string(), vec![]));
        let two =
            |e: &mut Estimate| (e.rho[2], e.boxes[0].kap[0]) = (NameSet::EMPTY, NameSet(0b10_0010));
        assert_eq!(stands(&two), ("clause 5 0 1 1".to_string(), vec![0]));
        let wall = |e: &mut Estimate| (e.boxes[1].shown, e.boxes[1].eps[3]) = Default::default();
        assert_eq!(stands(&wall), ("clause 2 1 0 3".to_string(), vec![1, 2]));
    }
}
