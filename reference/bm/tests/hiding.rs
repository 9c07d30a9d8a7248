//! Clauses 8 and 9: what they ask for, and what becomes of the answers of
//! clauses that ask for all of rho(p).

mod plain;

use std::collections::BTreeMap;

use bm::cases::rng::Rng;
use bm::cases::{crafted, random, walls};
use bm::model::Line;
use bm::{Estimate, Model, NameNo, NameSet, least};
use plain::{Answer, Plain, disturbed, said};

/// What the clauses say where 8 and 9 ask for all of rho(p).
fn said_before(model: &Model, estimate: &Estimate) -> Answer {
    Plain { model, estimate, all_of_rho: true }.check()
}

fn set(names: &[u8]) -> NameSet {
    names.iter().copied().map(NameNo).collect()
}

/// Box 1 receives x, the site of box 0, and would hide it and show it again.
const FAR_SITE: &str = "
    free x u c
    received y
    box site x {c} x<x>.0
    box site u {c} u(y).hide y.unhide y.0";

#[test]
fn a_site_of_another_box_is_not_asked_for() {
    let model = crafted::model(FAR_SITE);
    let least = least::least(&model);
    let [x, u, y] = [0, 1, 3].map(NameNo);
    assert_eq!(least.rho(y), NameSet::one(x));
    assert_eq!((least.boxes[1].shown, least.boxes[1].hidden), (set(&[u.0]), set(&[])));
    assert_eq!(said(&model, &least), None);
    assert_eq!(said_before(&model, &least), Some((8, 1, 1, x.0)));
    let (mut shown, mut hidden, mut both) = (least.clone(), least.clone(), least);
    shown.boxes[1].shown = set(&[x.0, u.0]);
    hidden.boxes[1].hidden = set(&[x.0]);
    (both.boxes[1].shown, both.boxes[1].hidden) = (set(&[x.0, u.0]), set(&[x.0]));
    assert_eq!(said(&model, &shown), Some((8, 1, 1, x.0)));
    assert_eq!(said(&model, &hidden), Some((9, 1, 2, x.0)));
    assert_eq!(said(&model, &both), None);
}

/// The lowest name counts that the clause asks for. y may be names 0 to 3. In
/// the first four cases 0 is neither shown nor hidden and 1 is both; in the
/// others 0 is on the wall.
#[test]
fn the_lowest_name_that_is_asked_for() {
    let told = |word: &str, shown: &[u8], hidden: &[u8]| {
        let text = "free a b c d t u received y box site u {t} u(y).";
        let model = crafted::model(&format!("{text}{word} y.0"));
        let mut estimate = least::least(&model);
        estimate.rho[6] = set(&[0, 1, 2, 3]);
        (estimate.boxes[0].shown, estimate.boxes[0].hidden) = (set(shown), set(hidden));
        (said(&model, &estimate), said_before(&model, &estimate))
    };
    let (eight, nine) = (|name| Some((8, 0, 1, name)), |name| Some((9, 0, 1, name)));
    assert_eq!(told("hide", &[1, 2, 3, 5], &[1]), (eight(2), eight(0)));
    assert_eq!(told("unhide", &[1, 5], &[1, 2, 3]), (nine(2), nine(0)));
    assert_eq!(told("hide", &[1, 5], &[1, 2, 3]), (None, eight(0)));
    assert_eq!(told("unhide", &[1, 2, 3, 5], &[1]), (None, nine(0)));
    assert_eq!(told("hide", &[0, 1, 2, 3, 5], &[1]), (eight(0), eight(0)));
    assert_eq!(told("unhide", &[1, 5], &[0, 1, 2, 3]), (nine(0), nine(0)));
    assert_eq!(told("hide", &[5], &[0, 1, 2, 3]), (None, None));
    assert_eq!(told("unhide", &[0, 1, 2, 3, 5], &[]), (None, None));
}

/// An estimate made larger until it is accepted where 8 and 9 ask for all of
/// rho(p).
fn accepted_before(model: &Model, mut estimate: Estimate) -> Estimate {
    while let Some((clause, box_no, _, name)) = said_before(model, &estimate) {
        assert!(clause >= 8, "{clause}");
        let sets = &mut estimate.boxes[box_no];
        let wall = if clause == 8 { &mut sets.hidden } else { &mut sets.shown };
        *wall = wall.with(NameNo(name));
        estimate = least::least_above(model, estimate);
    }
    estimate
}

/// Where an answer stands in the order of the clauses; accepted comes last.
fn place(answer: Answer) -> (usize, usize, usize, u8) {
    match answer {
        Some((1, _, name, _)) => (0, 0, name, 1),
        Some((2, box_no, site, _)) => (1 + box_no, 0, site, 2),
        Some((clause, box_no, line, _)) => (1 + box_no, 1, line, clause),
        None => (usize::MAX, 0, 0, 0),
    }
}

/// What became of an answer. Panics for what may not become of it.
fn outcome(model: &Model, before: Answer, now: Answer) -> String {
    let mut lines = model.boxes().iter().flat_map(|def| def.lines());
    let hides = lines.any(|line| matches!(line, Line::Hide { .. } | Line::Unhide { .. }));
    let Some((clause @ (8 | 9), .., name)) = before else {
        assert_eq!(now, before);
        let which = if before.is_some() { "clauses 1 to 7" } else { "accepted" };
        return format!("{which}, hides: {hides}");
    };
    assert!(place(now) >= place(before), "{before:?} became {now:?}");
    match now {
        None => format!("{clause} is accepted"),
        Some(_) if place(now) > place(before) => format!("{clause} is a later clause"),
        Some((.., now)) if now == name => format!("{clause} stays"),
        Some((.., now)) => {
            assert!(now > name, "{before:?} has the lower name {now}");
            format!("{clause} has a higher name")
        }
    }
}

#[test]
fn what_becomes_of_old_answers() {
    let mut rng = Rng::new(82);
    let mut counts: BTreeMap<String, usize> = BTreeMap::new();
    for round in 0..4_000 {
        let model = plain::model(&mut rng, round);
        let accepted = random::accepted(&mut rng, &model);
        let more = accepted_before(&model, accepted.clone());
        let wide = walls::widened(&mut rng, &model, &accepted);
        let mut estimates = [&accepted, &more].map(|one| disturbed(&mut rng, &model, one)).to_vec();
        estimates.extend([0; 2].map(|_| walls::redrawn(&mut rng, &model, &wide)));
        for estimate in estimates {
            let (before, now) = (said_before(&model, &estimate), said(&model, &estimate));
            let plain = Plain { model: &model, estimate: &estimate, all_of_rho: false }.check();
            assert_eq!(now, plain);
            *counts.entry(outcome(&model, before, now)).or_default() += 1;
        }
    }
    let often = counts.values().all(|count| *count >= 100);
    assert!(counts.len() == 12 && often, "{counts:#?}");
}
