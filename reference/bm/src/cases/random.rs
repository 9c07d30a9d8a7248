//! Random models and random accepted estimates.

use super::rng::Rng;
use crate::estimate::Estimate;
use crate::least;
use crate::model::{Line, LineNo, MAX_SITES, Model, Site};
use crate::names::{NameKind, NameNo, NameSet};
use crate::text::renumbered;
use crate::write::{Draft, DraftBox};

/// How large a model is to be.
#[derive(Clone, Copy, Debug)]
pub struct Size {
    pub names: usize,
    pub boxes: usize,
    /// The most sites of a box.
    pub sites: usize,
    /// The fewest and most lines of a box, or of each replicated part.
    pub lines: (usize, usize),
    /// How many replicated parts a box has; with none it is one random tree.
    pub parts: usize,
    /// A box whose sites have types of their own.
    pub apart: Option<usize>,
}

impl Size {
    /// The largest model.
    pub const LARGEST: Size =
        Size { names: 60, boxes: 8, sites: 3, lines: (124, 124), parts: 0, apart: None };

    pub fn small(rng: &mut Rng) -> Size {
        let boxes = rng.between(1, 3);
        Size { names: rng.between(8, 16), boxes, sites: 2, lines: (1, 16), parts: 0, apart: None }
    }

    pub fn typical(rng: &mut Rng) -> Size {
        let boxes = rng.between(2, 5);
        Size { names: rng.between(24, 48), boxes, sites: 3, lines: (12, 60), parts: 0, apart: None }
    }

    /// Boxes of replicated parts, whose runs do not come to an end.
    pub fn lively(rng: &mut Rng) -> Size {
        let (boxes, parts) = (rng.between(2, 4), rng.between(3, 6));
        Size { names: rng.between(30, 50), boxes, sites: 2, lines: (1, 3), parts, apart: None }
    }
}

/// A random model, accepted by the reader.
pub fn draft(rng: &mut Rng, size: Size) -> Draft {
    let kinds = kinds(rng, size);
    let free = names_of(&kinds, NameKind::Free);
    let mut plan = Plan::new(rng, &kinds, &free, size);
    let boxes = (0..size.boxes).map(|box_no| plan.box_def(rng, box_no)).collect();
    Draft { kinds, boxes }
}

/// A random model that has been read.
pub fn model(rng: &mut Rng, size: Size) -> Model {
    Model::read(&draft(rng, size).image()).expect("random models are accepted")
}

fn names_of(kinds: &[NameKind], kind: NameKind) -> Vec<NameNo> {
    let of_kind = kinds.iter().enumerate().filter(|(_, this)| **this == kind);
    of_kind.map(|(at, _)| NameNo(at as u8)).collect()
}

/// More than half of the names are free, and enough for the sites.
fn kinds(rng: &mut Rng, size: Size) -> Vec<NameKind> {
    let bound = [NameKind::Restricted, NameKind::Received, NameKind::Received, NameKind::Exposed];
    let least_free = (size.boxes + 4).max(size.names * 5 / 9);
    let mut kinds: Vec<NameKind> = (0..size.names)
        .map(|at| if at < least_free { NameKind::Free } else { bound[rng.below(4)] })
        .collect();
    rng.shuffle(&mut kinds);
    kinds
}

/// The names that the other boxes have as subjects or bind.
fn taken_by_others(draft: &Draft, box_no: usize) -> NameSet {
    let others = draft.boxes.iter().enumerate().filter(|(at, _)| *at != box_no);
    let names = others.flat_map(|(_, def)| {
        let subjects = def.sites.iter().map(|site| site.subject);
        subjects.chain(def.lines.iter().filter_map(|line| line.bound()))
    });
    names.collect()
}

/// The draft with another random filling of one box. The types of its sites
/// have names that they had before.
pub fn refilled(rng: &mut Rng, draft: &Draft, size: Size, box_no: usize) -> Draft {
    let taken = taken_by_others(draft, box_no);
    let names = (0..draft.kinds.len() as u8).map(NameNo).filter(|name| !taken.has(*name));
    let is_free = |name: &NameNo| draft.kinds[name.index()] == NameKind::Free;
    let (mut subjects, binders): (Vec<NameNo>, Vec<NameNo>) = names.partition(is_free);
    let first = draft.boxes[box_no].sites[0];
    let types = draft.boxes[box_no].sites.iter().map(|site| site.ty);
    let pool = types.fold(NameSet::EMPTY, NameSet::union);
    subjects.retain(|name| !pool.has(*name) && *name != first.subject);
    rng.shuffle(&mut subjects);
    subjects.truncate(rng.below(size.sites));
    let mut sites = vec![first];
    for subject in &subjects {
        let ty = pool.into_iter().filter(|_| rng.percent(50)).collect::<NameSet>();
        let ty = if ty.is_empty() { pool } else { ty };
        sites.push(Site { subject: *subject, hidden: rng.percent(15), ty });
    }
    subjects.push(first.subject);
    let free = names_of(&draft.kinds, NameKind::Free);
    let (kinds, pool) = (&draft.kinds, pool.into_iter().collect());
    let mut grower =
        Grower { kinds, free: &free, subjects: &subjects, pool, binders, lines: Vec::new() };
    grower.fill(rng, size);
    let lines = grower.lines;
    let mut other = draft.clone();
    other.boxes[box_no] = DraftBox { sites, lines };
    other
}

/// What is left to be given to the boxes.
struct Plan<'a> {
    kinds: &'a [NameKind],
    free: &'a [NameNo],
    size: Size,
    /// The subjects and the bound names of each box.
    subjects: Vec<Vec<NameNo>>,
    binders: Vec<Vec<NameNo>>,
    /// The names of types, and those of the box apart.
    pool: Vec<NameNo>,
    own_pool: Vec<NameNo>,
}

impl<'a> Plan<'a> {
    fn new(rng: &mut Rng, kinds: &'a [NameKind], free: &'a [NameNo], size: Size) -> Plan<'a> {
        let mut order = free.to_vec();
        rng.shuffle(&mut order);
        let pool = order[..2].to_vec();
        let own_pool = order[2..4].to_vec();
        let mut subjects = vec![Vec::new(); size.boxes];
        for (at, name) in order.iter().rev().enumerate().take(size.boxes * size.sites) {
            let wanted = at < size.boxes || rng.percent(60);
            if wanted && subjects[at % size.boxes].len() < MAX_SITES {
                subjects[at % size.boxes].push(*name);
            }
        }
        let mut bound: Vec<NameNo> = (0..kinds.len() as u8).map(NameNo).collect();
        bound.retain(|name| kinds[name.index()] != NameKind::Free);
        rng.shuffle(&mut bound);
        let mut binders = vec![Vec::new(); size.boxes];
        for (at, name) in bound.into_iter().enumerate().filter(|_| size.boxes > 0) {
            binders[at % size.boxes].push(name);
        }
        Plan { kinds, free, size, subjects, binders, pool, own_pool }
    }

    fn pool_of(&self, box_no: usize) -> &[NameNo] {
        if self.size.apart == Some(box_no) { &self.own_pool } else { &self.pool }
    }

    fn box_def(&mut self, rng: &mut Rng, box_no: usize) -> DraftBox {
        let subjects = self.subjects[box_no].clone();
        let mut sites = Vec::new();
        for subject in &subjects {
            let ty = self.site_type(rng, box_no, *subject);
            sites.push(Site { subject: *subject, hidden: rng.percent(15), ty });
        }
        let mut grower = Grower {
            kinds: self.kinds,
            free: self.free,
            subjects: &subjects,
            pool: self.pool_of(box_no).to_vec(),
            binders: std::mem::take(&mut self.binders[box_no]),
            lines: Vec::new(),
        };
        grower.fill(rng, self.size);
        let lines = if rng.percent(50) { grower.lines } else { reordered(rng, &grower.lines) };
        DraftBox { sites, lines }
    }

    /// Names of the pool, and seldom another free name.
    fn site_type(&self, rng: &mut Rng, box_no: usize, subject: NameNo) -> NameSet {
        let pool = self.pool_of(box_no);
        let mut ty: NameSet = pool.iter().copied().filter(|_| rng.percent(50)).collect();
        if self.size.apart.is_none() && rng.percent(20) {
            ty = rng.pick(self.free).map_or(ty, |name| ty.with(name));
        }
        let ty = ty.without(subject);
        let fallback = || pool.iter().copied().find(|name| *name != subject);
        if ty.is_empty() { fallback().into_iter().collect() } else { ty }
    }
}

/// Grows the lines of one box, numbered top down.
struct Grower<'a> {
    kinds: &'a [NameKind],
    free: &'a [NameNo],
    subjects: &'a [NameNo],
    pool: Vec<NameNo>,
    binders: Vec<NameNo>,
    lines: Vec<Line>,
}

impl Grower<'_> {
    fn fill(&mut self, rng: &mut Rng, size: Size) {
        if size.parts > 0 {
            self.parts(rng, size.parts, size.lines);
        } else {
            let budget = rng.between(size.lines.0, size.lines.1);
            self.grow(rng, budget, NameSet::EMPTY);
        }
    }

    /// Grows a process of exactly this many lines.
    fn grow(&mut self, rng: &mut Rng, budget: usize, scope: NameSet) -> LineNo {
        let at = self.lines.len();
        self.lines.push(Line::Nil);
        if budget >= 3 && rng.percent(30) {
            let left = rng.between(1, budget - 2);
            let first = self.grow(rng, left, scope);
            let second = self.grow(rng, budget - 1 - left, scope);
            self.lines[at] = Line::Parallel { first, second };
        } else if budget >= 2 {
            let line = self.prefix(rng, scope);
            let below = line.bound().map_or(scope, |name| scope.with(name));
            let next = self.grow(rng, budget - 1, below);
            self.lines[at] = renumbered(line, |_| next);
        }
        LineNo(at as u16)
    }

    /// Grows this many replicated parts.
    fn parts(&mut self, rng: &mut Rng, count: usize, budget: (usize, usize)) -> LineNo {
        let at = self.lines.len();
        self.lines.push(Line::Nil);
        self.lines[at] = if count == 1 {
            Line::Replicate { next: self.part(rng, budget) }
        } else {
            let first = self.parts(rng, 1, budget);
            Line::Parallel { first, second: self.parts(rng, count - 1, budget) }
        };
        LineNo(at as u16)
    }

    /// Grows a part that begins with an input or output on a site.
    fn part(&mut self, rng: &mut Rng, budget: (usize, usize)) -> LineNo {
        let at = self.lines.len();
        self.lines.push(Line::Nil);
        let on = self.subjects[rng.below(self.subjects.len())];
        let received = |name: &NameNo| self.kinds[name.index()] == NameKind::Received;
        let binder = self.binders.iter().position(received).filter(|_| rng.percent(50));
        let line = match binder.map(|place| self.binders.swap_remove(place)) {
            Some(into) => Line::Input { on, into, next: LineNo(0) },
            None => Line::Output { on, of: self.any(rng, NameSet::EMPTY), next: LineNo(0) },
        };
        let budget = rng.between(budget.0, budget.1);
        let next = self.grow(rng, budget, line.bound().into_iter().collect());
        self.lines[at] = renumbered(line, |_| next);
        LineNo(at as u16)
    }

    /// A line with one child, whose number is not set yet.
    fn prefix(&mut self, rng: &mut Rng, scope: NameSet) -> Line {
        let next = LineNo(0);
        if rng.percent(40) && !self.binders.is_empty() {
            let name = self.binders.swap_remove(rng.below(self.binders.len()));
            return self.binder(rng, scope, name);
        }
        match rng.below(12) {
            0..3 => Line::Replicate { next },
            3 => Line::Hide { on: self.channel(rng, scope), next },
            4 => Line::Unhide { on: self.channel(rng, scope), next },
            _ => Line::Output { on: self.channel(rng, scope), of: self.any(rng, scope), next },
        }
    }

    fn binder(&self, rng: &mut Rng, scope: NameSet, name: NameNo) -> Line {
        let next = LineNo(0);
        match self.kinds[name.index()] {
            NameKind::Restricted => Line::Restrict { name, next },
            NameKind::Exposed => Line::Expose { name, ty: self.expose_type(rng, scope), next },
            _ => Line::Input { on: self.channel(rng, scope), into: name, next },
        }
    }

    /// Names of the pool or in scope; exposed names are bound once, so the
    /// new one is none of them.
    fn expose_type(&self, rng: &mut Rng, scope: NameSet) -> NameSet {
        let count = rng.between(1, 3);
        let names = (0..count).map(|_| {
            let bound: Vec<NameNo> = scope.into_iter().collect();
            let bound = if rng.percent(50) { rng.pick(&bound) } else { None };
            bound.unwrap_or_else(|| self.pool[rng.below(self.pool.len())])
        });
        names.collect()
    }

    /// Mostly the subject of a site, else a name in scope or free.
    fn channel(&self, rng: &mut Rng, scope: NameSet) -> NameNo {
        if rng.percent(75) {
            return self.subjects[rng.below(self.subjects.len())];
        }
        self.any(rng, scope)
    }

    fn any(&self, rng: &mut Rng, scope: NameSet) -> NameNo {
        let bound: Vec<NameNo> = scope.into_iter().collect();
        let bound = if rng.percent(60) { rng.pick(&bound) } else { None };
        bound.unwrap_or_else(|| self.free[rng.below(self.free.len())])
    }
}

/// The same tree with other numbers, children still after their parents.
pub fn reordered(rng: &mut Rng, lines: &[Line]) -> Vec<Line> {
    let mut numbers = vec![LineNo(0); lines.len()];
    let mut open = vec![LineNo(0)];
    for number in 0..lines.len() {
        let at = open.swap_remove(rng.below(open.len()));
        numbers[at.index()] = LineNo(number as u16);
        open.extend(lines[at.index()].children());
    }
    let mut moved = vec![Line::Nil; lines.len()];
    for (line, number) in lines.iter().zip(&numbers) {
        moved[number.index()] = renumbered(*line, |child| numbers[child.index()]);
    }
    moved
}

/// An accepted estimate: the least, or the least above some more members.
pub fn accepted(rng: &mut Rng, model: &Model) -> Estimate {
    let mut more = Estimate::EMPTY;
    let names = model.kinds().len();
    if names > 0 && rng.percent(50) {
        for _ in 0..rng.between(1, 6) {
            let (of, member) = (rng.below(names), NameNo(rng.below(names) as u8));
            let set = any_set(rng, &mut more, model.boxes().len(), of);
            *set = set.with(member);
        }
    }
    least::least_above(model, more)
}

/// One of the sets that an estimate has for a name.
fn any_set<'e>(
    rng: &mut Rng,
    estimate: &'e mut Estimate,
    boxes: usize,
    of: usize,
) -> &'e mut NameSet {
    if boxes == 0 {
        return &mut estimate.rho[of];
    }
    let sets = &mut estimate.boxes[rng.below(boxes)];
    match rng.below(5) {
        0 => &mut estimate.rho[of],
        1 => &mut sets.shown,
        2 => &mut sets.hidden,
        3 => &mut sets.eps[of],
        _ => &mut sets.kap[of],
    }
}

/// Every single set of an estimate, for a model.
pub fn sets<'e>(
    model: &Model,
    estimate: &'e mut Estimate,
) -> impl Iterator<Item = &'e mut NameSet> {
    let names = model.kinds().len();
    let boxes = estimate.boxes[..model.boxes().len()].iter_mut();
    let of_boxes = boxes.flat_map(move |sets| {
        let iota = [&mut sets.shown, &mut sets.hidden];
        let named = sets.eps[..names].iter_mut().chain(&mut sets.kap[..names]);
        iota.into_iter().chain(named)
    });
    estimate.rho[..names].iter_mut().chain(of_boxes)
}

/// An accepted estimate less some member, so that this clause is the first
/// broken one.
pub fn broken_at(
    rng: &mut Rng,
    model: &Model,
    estimate: &Estimate,
    clause: u8,
) -> Option<Estimate> {
    let mut short = estimate.clone();
    let members = sets(model, &mut short).enumerate();
    let members = members.flat_map(|(at, set)| set.into_iter().map(move |name| (at, name)));
    let mut members: Vec<(usize, NameNo)> = members.collect();
    rng.shuffle(&mut members);
    members.into_iter().take(400).find_map(|(at, name)| {
        let mut short = estimate.clone();
        let set = sets(model, &mut short).nth(at)?;
        *set = set.without(name);
        let broken = crate::clauses::check(model, &short).err()?;
        (broken.clause == clause).then_some(short)
    })
}
