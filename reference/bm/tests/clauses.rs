//! The clauses one by one, and against a checker that goes through all names.

mod plain;

use bm::cases::crafted::{self, EVERY_CLAUSE};
use bm::cases::random;
use bm::cases::rng::Rng;
use bm::{Estimate, NameNo, NameSet, least};
use plain::{Plain, disturbed, said};

#[test]
fn same_as_the_plain_checker() {
    let mut rng = Rng::new(31);
    let mut seen = [0; 10];
    for round in 0..4_000 {
        let model = plain::model(&mut rng, round);
        let accepted = random::accepted(&mut rng, &model);
        for _ in 0..6 {
            let estimate = disturbed(&mut rng, &model, &accepted);
            let plain = Plain { model: &model, estimate: &estimate, all_of_rho: false }.check();
            assert_eq!(said(&model, &estimate), plain);
            seen[plain.map_or(0, |(clause, ..)| usize::from(clause))] += 1;
        }
    }
    assert!(seen.iter().all(|count| *count >= 20), "{seen:?}");
}

/// Each clause of the model that has them all, with the name that is missing.
#[test]
fn each_clause_and_part() {
    let model = crafted::model(EVERY_CLAUSE);
    let least = least::least(&model);
    assert_eq!(said(&model, &least), None);
    let (x, z, v, c, h) = (NameNo(0), NameNo(1), NameNo(3), NameNo(4), NameNo(5));
    let (n, y, e) = (NameNo(6), NameNo(7), NameNo(8));
    let without = |change: &dyn Fn(&mut Estimate)| {
        let mut short = least.clone();
        change(&mut short);
        said(&model, &short).expect("a broken clause")
    };
    let rho = |of: NameNo, name| without(&|s| s.rho[of.index()] = s.rho(of).without(name));
    let eps = |of: NameNo, name| {
        without(&|s| s.boxes[0].eps[of.index()] = s.boxes[0].eps(of).without(name))
    };
    let kap = |of: NameNo, name| {
        without(&|s| s.boxes[0].kap[of.index()] = s.boxes[0].kap(of).without(name))
    };
    let shown = |name| without(&|s| s.boxes[0].shown = s.boxes[0].shown.without(name));
    let hidden = |name| without(&|s| s.boxes[0].hidden = s.boxes[0].hidden.without(name));
    assert_eq!(rho(z, z), (1, 0, 1, 1));
    assert_eq!(shown(x), (2, 0, 0, 0));
    assert_eq!(hidden(h), (2, 0, 1, 5));
    assert_eq!(eps(h, c), (2, 0, 1, 4));
    assert_eq!(rho(n, n), (3, 0, 6, 6));
    assert_eq!(kap(x, z), (4, 0, 4, 1));
    assert_eq!(rho(y, z), (5, 0, 1, 1));
    assert_eq!(rho(y, v), (6, 0, 1, 3));
    assert_eq!(rho(e, e), (7, 0, 7, 8));
    assert_eq!(shown(e), (7, 0, 7, 8));
    assert_eq!(eps(e, c), (7, 0, 7, 4));
    assert_eq!(hidden(e), (8, 0, 8, 8));
    assert_eq!(shown(h), (9, 0, 9, 5));
}

/// Names p and q are sites of boxes 2 and 1, so that box 1 comes first by its number and box 2 by its site's.
const THREE_BOXES: &str = "
    free x p q c m n
    received y
    exposed e
    box site x {c} x(y).expose e {m, n}.0
    box site q {c} q<m>.0
    box site p {c} p<n>.0";

/// Where several sets are short, the first that the clause speaks of counts, and of its names the lowest.
#[test]
fn the_first_set_short_counts() {
    let model = crafted::model(THREE_BOXES);
    let least = least::least(&model);
    let [x, p, q, c, m, n, y, e] = [0, 1, 2, 3, 4, 5, 6, 7].map(NameNo);
    let without = |change: &dyn Fn(&mut Estimate)| {
        let mut short = least.clone();
        change(&mut short);
        said(&model, &short).expect("a broken clause")
    };
    let empty = NameSet::EMPTY;
    // Clause 6: box 1 before box 2, though its site's name is the higher.
    assert_eq!(without(&|s| s.rho[y.index()] = empty), (6, 0, 0, m.0));
    let in_box_2 = |s: &mut Estimate| s.rho[y.index()] = NameSet::one(m);
    assert_eq!(without(&in_box_2), (6, 0, 0, n.0));
    // A channel of two names: what the lower lacks.
    let two_channels = |s: &mut Estimate| {
        s.rho[q.index()] = NameSet::one(q).with(c);
        s.rho[m.index()] = NameSet::one(m).with(x).with(p);
        s.boxes[1].kap[q.index()] = NameSet::one(p).with(m);
        s.boxes[1].kap[c.index()] = NameSet::one(x);
        s.rho[y.index()] = model.listed();
        s.boxes[0].eps[e.index()] = model.listed();
    };
    assert_eq!(without(&two_channels), (4, 1, 0, x.0));
    // A type of two names, each lacking its own, and the name itself before them.
    assert_eq!(without(&|s| s.boxes[0].eps[e.index()] = empty), (7, 0, 1, m.0));
    let none = |s: &mut Estimate| {
        s.boxes[0].eps[e.index()] = empty;
        s.boxes[0].shown = s.boxes[0].shown.without(e);
    };
    assert_eq!(without(&none), (7, 0, 1, e.0));
    // A site's subject before its type.
    let neither = |s: &mut Estimate| (s.boxes[1].shown, s.boxes[1].eps[q.index()]) = (empty, empty);
    assert_eq!(without(&neither), (2, 1, 0, q.0));
}
