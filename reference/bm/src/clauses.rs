//! The nine clauses, and the question whether a box is shut off.

use std::fmt;

use crate::estimate::{BoxSets, Estimate};
use crate::model::{Line, MAX_BOXES, Model, Site};
use crate::names::{NameNo, NameSet};

/// The first clause that an estimate breaks.
#[derive(Clone, Copy, PartialEq, Eq, Hash, Debug)]
pub struct Broken {
    /// The clause, 1 to 9.
    pub clause: u8,
    /// The box; 0 for clause 1.
    pub box_no: usize,
    /// The name, site or line.
    pub record: usize,
    /// The lowest name that is missing, in the first set that is short.
    pub missing: NameNo,
}

/// Prints as `clause 5 0 1 1`.
impl fmt::Display for Broken {
    fn fmt(&self, f: &mut fmt::Formatter<'_>) -> fmt::Result {
        write!(f, "clause {} {} {} {}", self.clause, self.box_no, self.record, self.missing)
    }
}

/// Checks an estimate against all clauses in order.
pub fn check(model: &Model, estimate: &Estimate) -> Result<(), Broken> {
    for name in model.free() {
        member(1, name, estimate.rho(name)).map_err(|short| short.at(0, name.index()))?;
    }
    let checker = Checker { model, estimate, sent: estimate.boxes.each_ref().map(sent) };
    for (box_no, def) in model.boxes().iter().enumerate() {
        for (at, site) in def.sites().iter().enumerate() {
            checker.site(box_no, site).map_err(|short| short.at(box_no, at))?;
        }
        for (at, line) in def.lines().iter().enumerate() {
            checker.line(box_no, line).map_err(|short| short.at(box_no, at))?;
        }
    }
    Ok(())
}

/// Whether, by the estimate, no shown name of the box shares a type name
/// with a shown name of another.
pub fn shut_off(model: &Model, estimate: &Estimate, box_no: usize) -> bool {
    let own = &estimate.boxes[box_no];
    let others = estimate.boxes[..model.boxes().len()].iter().enumerate();
    others.filter(|(other, _)| *other != box_no).all(|(_, other)| !linked(own, other))
}

/// Whether two boxes have shown names whose types share a name.
fn linked(one: &BoxSets, other: &BoxSets) -> bool {
    let types = |sets: &BoxSets| {
        let each = sets.shown.into_iter().map(|name| sets.eps(name));
        each.fold(NameSet::EMPTY, NameSet::union)
    };
    types(one).shares(types(other))
}

/// A clause that is short of a name.
struct Short {
    clause: u8,
    missing: NameNo,
}

impl Short {
    fn at(self, box_no: usize, record: usize) -> Broken {
        Broken { clause: self.clause, box_no, record, missing: self.missing }
    }
}

/// The name is in the set.
fn member(clause: u8, name: NameNo, set: NameSet) -> Result<(), Short> {
    within(clause, NameSet::one(name), set)
}

/// The first set lies within the second.
fn within(clause: u8, first: NameSet, second: NameSet) -> Result<(), Short> {
    match first.lowest_missing_in(second) {
        None => Ok(()),
        Some(missing) => Err(Short { clause, missing }),
    }
}

/// All that a box may send on its shown names.
fn sent(sets: &BoxSets) -> NameSet {
    let each = sets.shown.into_iter().map(|name| sets.kap(name));
    each.fold(NameSet::EMPTY, NameSet::union)
}

struct Checker<'a> {
    model: &'a Model,
    estimate: &'a Estimate,
    sent: [NameSet; MAX_BOXES],
}

impl Checker<'_> {
    /// Clause 2.
    fn site(&self, box_no: usize, site: &Site) -> Result<(), Short> {
        let sets = &self.estimate.boxes[box_no];
        member(2, site.subject, if site.hidden { sets.hidden } else { sets.shown })?;
        within(2, site.ty, sets.eps(site.subject))
    }

    /// Clauses 3 to 9.
    fn line(&self, box_no: usize, line: &Line) -> Result<(), Short> {
        let sets = &self.estimate.boxes[box_no];
        let rho = |name| self.estimate.rho(name);
        match *line {
            Line::Nil | Line::Parallel { .. } | Line::Replicate { .. } => Ok(()),
            Line::Restrict { name, .. } => member(3, name, rho(name)),
            Line::Output { on, of, .. } => {
                rho(on).into_iter().try_for_each(|a| within(4, rho(of), sets.kap(a)))
            }
            Line::Input { on, into, .. } => {
                rho(on).into_iter().try_for_each(|a| within(5, sets.kap(a), rho(into)))?;
                self.received(box_no, rho(on), rho(into))
            }
            Line::Expose { name, ty, .. } => {
                member(7, name, rho(name))?;
                member(7, name, sets.shown)?;
                ty.into_iter().try_for_each(|g| within(7, rho(g), sets.eps(name)))
            }
            Line::Hide { on, .. } => within(8, rho(on).meet(sets.shown), sets.hidden),
            Line::Unhide { on, .. } => within(9, rho(on).meet(sets.hidden), sets.shown),
        }
    }

    /// Clause 6: what other boxes may send on sites that fit is received. A
    /// box of which all that it may send is received need not be gone through.
    fn received(&self, box_no: usize, channels: NameSet, into: NameSet) -> Result<(), Short> {
        let sets = &self.estimate.boxes[box_no];
        for a in channels.meet(sets.shown) {
            for far in self.others_sending_more(box_no, into) {
                let mut fit = far.shown.into_iter().filter(|c| far.eps(*c).shares(sets.eps(a)));
                fit.try_for_each(|c| within(6, far.kap(c), into))?;
            }
        }
        Ok(())
    }

    /// The other boxes, ascending, that may send a name not in the set.
    fn others_sending_more(&self, box_no: usize, set: NameSet) -> impl Iterator<Item = &BoxSets> {
        let boxes = self.estimate.boxes[..self.model.boxes().len()].iter().enumerate();
        let others = boxes.filter(move |(other, _)| *other != box_no);
        others.filter(move |(other, _)| !self.sent[*other].within(set)).map(|(_, far)| far)
    }
}
