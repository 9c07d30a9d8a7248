//! A checker that asks for each name by itself, in the order of the clauses.

use bm::cases::random::{self, Size};
use bm::cases::rng::Rng;
use bm::model::Line;
use bm::{Broken, Estimate, Model, NameKind, NameNo, NameSet, clauses};

/// The first of all names in the one set and not in the other.
fn first_missing(one: impl Fn(u8) -> bool, other: impl Fn(u8) -> bool) -> Option<u8> {
    (0..60).find(|name| one(*name) && !other(*name))
}

/// A broken clause: its number, box, record and missing name.
pub type Answer = Option<(u8, usize, usize, u8)>;

/// What the implementation says.
pub fn said(model: &Model, estimate: &Estimate) -> Answer {
    let broken = clauses::check(model, estimate).err();
    broken.map(|Broken { clause, box_no, record, missing }| (clause, box_no, record, missing.0))
}

pub struct Plain<'a> {
    pub model: &'a Model,
    pub estimate: &'a Estimate,
    /// Clauses 8 and 9 ask for all of rho(p), and not only for what is on the
    /// box's wall.
    pub all_of_rho: bool,
}

impl Plain<'_> {
    fn rho(&self, of: u8, name: u8) -> bool {
        self.estimate.rho[usize::from(of)].has(NameNo(name))
    }

    fn shown(&self, b: usize, name: u8) -> bool {
        self.estimate.boxes[b].shown.has(NameNo(name))
    }

    fn hidden(&self, b: usize, name: u8) -> bool {
        self.estimate.boxes[b].hidden.has(NameNo(name))
    }

    fn eps(&self, b: usize, of: u8, name: u8) -> bool {
        self.estimate.boxes[b].eps[usize::from(of)].has(NameNo(name))
    }

    fn kap(&self, b: usize, of: u8, name: u8) -> bool {
        self.estimate.boxes[b].kap[usize::from(of)].has(NameNo(name))
    }

    fn share(&self, b: usize, a: u8, k: usize, c: u8) -> bool {
        (0..60).any(|name| self.eps(b, a, name) && self.eps(k, c, name))
    }

    /// The clause and the missing name of a line.
    fn line(&self, b: usize, line: Line) -> Option<(u8, u8)> {
        let in_rho = |of: NameNo| (0..60).filter(move |name| self.rho(of.0, *name));
        match line {
            Line::Restrict { name: NameNo(n), .. } => (!self.rho(n, n)).then_some((3, n)),
            Line::Output { on, of: NameNo(q), .. } => {
                let short = |a| first_missing(|v| self.rho(q, v), |v| self.kap(b, a, v));
                in_rho(on).find_map(short).map(|name| (4, name))
            }
            Line::Input { on, into: NameNo(q), .. } => {
                let short = |a| first_missing(|v| self.kap(b, a, v), |v| self.rho(q, v));
                let five = in_rho(on).find_map(short).map(|name| (5, name));
                five.or_else(|| self.six(b, on.0, q).map(|name| (6, name)))
            }
            Line::Expose { name: NameNo(n), ty, .. } => {
                if !self.rho(n, n) || !self.shown(b, n) {
                    return Some((7, n));
                }
                let short = |g: NameNo| first_missing(|v| self.rho(g.0, v), |v| self.eps(b, n, v));
                ty.into_iter().find_map(short).map(|name| (7, name))
            }
            Line::Hide { on, .. } => {
                let asked = |v| self.rho(on.0, v) && (self.all_of_rho || self.shown(b, v));
                first_missing(asked, |v| self.hidden(b, v)).map(|name| (8, name))
            }
            Line::Unhide { on, .. } => {
                let asked = |v| self.rho(on.0, v) && (self.all_of_rho || self.hidden(b, v));
                first_missing(asked, |v| self.shown(b, v)).map(|name| (9, name))
            }
            Line::Nil | Line::Parallel { .. } | Line::Replicate { .. } => None,
        }
    }

    fn six(&self, b: usize, p: u8, q: u8) -> Option<u8> {
        let boxes = 0..self.model.boxes().len();
        let mut ways = Vec::new();
        for a in (0..60).filter(|a| self.rho(p, *a) && self.shown(b, *a)) {
            for k in boxes.clone().filter(|k| *k != b) {
                ways.extend((0..60).map(|c| (a, k, c)));
            }
        }
        let mut ways = ways.into_iter();
        ways.find_map(|(a, k, c)| {
            let fit = self.shown(k, c) && self.share(b, a, k, c);
            first_missing(|v| fit && self.kap(k, c, v), |v| self.rho(q, v))
        })
    }

    pub fn check(&self) -> Answer {
        let free = |n: &u8| self.model.kind(NameNo(*n)) == NameKind::Free;
        let names = 0..self.model.kinds().len() as u8;
        if let Some(n) = names.filter(free).find(|n| !self.rho(*n, *n)) {
            return Some((1, 0, usize::from(n), n));
        }
        for (b, def) in self.model.boxes().iter().enumerate() {
            for (at, site) in def.sites().iter().enumerate() {
                let NameNo(x) = site.subject;
                let iota = if site.hidden { self.hidden(b, x) } else { self.shown(b, x) };
                let ty = first_missing(|v| site.ty.has(NameNo(v)), |v| self.eps(b, x, v));
                if let Some(name) = if iota { ty } else { Some(x) } {
                    return Some((2, b, at, name));
                }
            }
            let mut lines = def.lines().iter().enumerate();
            let short = lines.find_map(|(at, line)| Some((at, self.line(b, *line)?)));
            if let Some((at, (clause, name))) = short {
                return Some((clause, b, at, name));
            }
        }
        None
    }
}

/// A set of an estimate: shown or hidden names of a box, or any.
fn some_set<'e>(rng: &mut Rng, model: &Model, estimate: &'e mut Estimate) -> &'e mut NameSet {
    if rng.percent(30) {
        let sets = &mut estimate.boxes[rng.below(model.boxes().len())];
        return if rng.percent(50) { &mut sets.shown } else { &mut sets.hidden };
    }
    let at = rng.below(random::sets(model, estimate).count());
    random::sets(model, estimate).nth(at).expect("a set")
}

/// Some members taken out of an estimate, or put in.
pub fn disturbed(rng: &mut Rng, model: &Model, estimate: &Estimate) -> Estimate {
    let mut other = estimate.clone();
    let names = model.kinds().len();
    for _ in 0..rng.between(0, 4) {
        let add = rng.percent(40);
        let set = some_set(rng, model, &mut other);
        let members: Vec<NameNo> = set.into_iter().collect();
        *set = match rng.pick(&members).filter(|_| !add) {
            Some(name) => set.without(name),
            None => set.with(NameNo(rng.below(names) as u8)),
        };
    }
    other
}

/// A random model, of one of the sizes in turn.
pub fn model(rng: &mut Rng, round: usize) -> Model {
    let size = match round % 8 {
        0 => Size::typical(rng),
        1..4 => Size::lively(rng),
        _ => Size::small(rng),
    };
    random::model(rng, size)
}
