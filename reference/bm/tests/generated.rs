//! Generated cases: what they cover, and what must hold of all of them.

use std::collections::BTreeMap;
use std::io::Write;

use bm::cases::change::Change;
use bm::cases::damage::{DAMAGES, Expected, Pair};
use bm::cases::odd::ODDITIES;
use bm::cases::random::{self, Size};
use bm::cases::rng::Rng;
use bm::cases::spoil::SPOILINGS;
use bm::cases::walk::{self, Taste};
use bm::cases::{Case, case, sort_count, walked_words};
use bm::state::{RECORD_WORDS, Record, STATE_WORDS, keeps_rules, records};
use bm::step::{self, move_kind};
use bm::write::Draft;
use bm::{Estimate, Held, Model, Move, NameNo, ShutOff, Verdict, calls, clauses, least};

/// How often each answer came.
#[derive(Default)]
struct Tally {
    refusals: BTreeMap<u8, usize>,
    clauses: BTreeMap<u8, usize>,
    made: BTreeMap<u32, usize>,
    other: BTreeMap<&'static str, usize>,
}

impl Tally {
    fn refused(&mut self, number: u8) {
        *self.refusals.entry(number).or_default() += 1;
    }

    fn count(&mut self, case: &Case) -> Vec<u8> {
        let mut seen = Vec::new();
        match calls::check(&case.model, &case.estimate) {
            Verdict::Accepted => *self.other.entry("accepted").or_default() += 1,
            Verdict::Broken(broken) => *self.clauses.entry(broken.clause).or_default() += 1,
            Verdict::RefusedModel(refusal) | Verdict::RefusedEstimate(refusal) => {
                seen.push(refusal.cause.number());
            }
        }
        for box_no in 0..9 {
            match calls::shut_off(&case.model, &case.estimate, box_no) {
                ShutOff::Yes => *self.other.entry("shut off").or_default() += 1,
                ShutOff::No => *self.other.entry("not shut off").or_default() += 1,
                ShutOff::NoBox | ShutOff::Not(_) => {}
            }
        }
        seen.extend(self.count_run(case));
        seen.iter().for_each(|number| self.refused(*number));
        seen
    }

    fn count_run(&mut self, case: &Case) -> Vec<u8> {
        let Ok(model) = Model::read(&case.model) else {
            return Vec::new();
        };
        let mut words = case.words.clone().unwrap_or_else(|| walk::start(&model));
        let mut answers = vec![0; case.moves.len()];
        if let Err(refusal) = calls::run(&case.model, &mut words, &case.moves, &mut answers) {
            return vec![refusal.cause.number()];
        }
        for (mv, _) in case.moves.iter().zip(&answers).filter(|(_, answer)| **answer == 0) {
            *self.made.entry(mv.kind).or_default() += 1;
        }
        answers.into_iter().filter(|answer| *answer != 0).collect()
    }
}

impl Tally {
    /// The table of counts. Each refusal, clause and kind must have come.
    fn table(&self) -> String {
        let mut table = String::from("\nrefusal  cases or moves\n");
        let line = |number: u32, count: usize| format!("{number:7}  {count}\n");
        table.extend((1..=20u8).map(|number| line(number.into(), self.refusals[&number])));
        table.push_str(" clause  cases\n");
        table.extend((1..=9u8).map(|clause| line(clause.into(), self.clauses[&clause])));
        table.push_str("   kind  moves made\n");
        table.extend((1..=9u32).map(|kind| line(kind, self.made[&kind])));
        table.extend(self.other.iter().map(|(what, count)| format!("{what}: {count}\n")));
        table
    }
}

/// The number that the name of a sort promises.
fn promised(sort: &str, word: &str) -> Option<u8> {
    let rest = sort.strip_prefix(word)?;
    rest.split('-').next()?.parse().ok()
}

#[test]
fn cases_cover_every_answer() {
    let mut tally = Tally::default();
    for number in 0..20 * sort_count() as u64 {
        let case = case(1, number);
        let seen = tally.count(&case);
        if let Some(refusal) = promised(&case.sort, "refusal-") {
            assert!(seen.contains(&refusal), "case {number}: {} gave {seen:?}", case.sort);
        }
        if let Some(clause) = promised(&case.sort, "clause-") {
            let verdict = calls::check(&case.model, &case.estimate);
            let is = matches!(verdict, Verdict::Broken(broken) if broken.clause == clause);
            assert!(is, "case {number}: {} gave {verdict}", case.sort);
        }
    }
    // Written straight to the output, so that it is seen when the test passes.
    std::io::stdout().write_all(tally.table().as_bytes()).unwrap();
    assert!(tally.made[&move_kind::INTER] > 600);
    assert_eq!(tally.other.len(), 3);
}

#[test]
fn same_seed_same_cases() {
    let mut differ = 0;
    for number in 0..40 {
        assert_eq!(case(7, number), case(7, number));
        differ += usize::from(case(7, number) != case(8, number));
    }
    assert!(differ > 30);
}

#[test]
fn damages_get_their_refusal_and_place() {
    let mut rng = Rng::new(2);
    let mut made = vec![0; DAMAGES.len()];
    for round in 0..400 {
        let size = if round % 20 == 0 { Size::LARGEST } else { Size::typical(&mut rng) };
        let draft = random::draft(&mut rng, size);
        let model = Model::read(&draft.image()).unwrap();
        let estimate = least::least(&model).image(size.boxes);
        for (damage, made) in DAMAGES.iter().zip(&mut made) {
            let mut pair = Pair { model: draft.image(), estimate: estimate.clone() };
            let Some(expected) = damage.make(&mut rng, &model, &mut pair) else {
                continue;
            };
            *made += 1;
            let got = match calls::check(&pair.model, &pair.estimate) {
                Verdict::RefusedModel(refusal) => Some(Expected::OfModel(refusal)),
                Verdict::RefusedEstimate(refusal) => Some(Expected::OfEstimate(refusal)),
                _ => None,
            };
            assert_eq!(got, Some(expected), "{}", damage.name);
        }
    }
    for (damage, made) in DAMAGES.iter().zip(made) {
        assert!(made >= 100, "{} was made {made} times", damage.name);
    }
}

/// Makes each change to states of walks, and holds it to keep the state rules
/// or to break them.
fn changes_keep_rules(seed: u64, changes: &[Change], keep: bool) {
    let mut rng = Rng::new(seed);
    let mut made = vec![0; changes.len()];
    for _ in 0..400 {
        let size = Size::typical(&mut rng);
        let model = random::model(&mut rng, size);
        let words = walked_words(&mut rng, &model);
        assert!(keeps_rules(&model, records(&words).unwrap()));
        for (change, made) in changes.iter().zip(&mut made) {
            let mut changed = words.clone();
            if change.make(&mut rng, &model, &mut changed) {
                *made += 1;
                assert_eq!(
                    keeps_rules(&model, records(&changed).unwrap()),
                    keep,
                    "{}",
                    change.name
                );
            } else {
                assert_eq!(changed, words, "{}", change.name);
            }
        }
    }
    for (change, made) in changes.iter().zip(made) {
        assert!(made >= 20, "{} was made {made} times", change.name);
    }
}

#[test]
fn spoilings_break_the_rules() {
    changes_keep_rules(3, SPOILINGS, false);
}

#[test]
fn oddities_keep_the_rules() {
    changes_keep_rules(9, ODDITIES, true);
}

/// The sets of an estimate as numbers of members.
fn members(model: &Model, estimate: &Estimate) -> usize {
    random::sets(model, &mut estimate.clone()).map(|set| set.len()).sum()
}

#[test]
fn least_estimates_are_accepted_and_tight() {
    let mut rng = Rng::new(4);
    for _ in 0..60 {
        let size = Size::small(&mut rng);
        let model = random::model(&mut rng, size);
        let estimate = least::least(&model);
        assert_eq!(clauses::check(&model, &estimate), Ok(()));
        let sets = random::sets(&model, &mut estimate.clone()).count();
        for at in 0..sets {
            let set = *random::sets(&model, &mut estimate.clone()).nth(at).unwrap();
            for name in set {
                let mut short = estimate.clone();
                let set = random::sets(&model, &mut short).nth(at).unwrap();
                *set = set.without(name);
                assert!(clauses::check(&model, &short).is_err());
            }
        }
        let looser = random::accepted(&mut rng, &model);
        assert_eq!(clauses::check(&model, &looser), Ok(()));
        assert!(members(&model, &looser) >= members(&model, &estimate));
    }
}

/// The boxes whose records differ.
fn changed_boxes(before: &[u32], after: &[u32]) -> Vec<usize> {
    let pairs = before.chunks(RECORD_WORDS).zip(after.chunks(RECORD_WORDS)).enumerate();
    pairs.filter(|(_, (one, other))| one != other).map(|(box_no, _)| box_no).collect()
}

#[test]
fn steps_keep_the_rules_and_refusals_the_words() {
    let mut rng = Rng::new(5);
    let (mut made, mut refused) = (0, 0);
    for round in 0..120 {
        let size = match round % 10 {
            0 => Size::LARGEST,
            1..6 => Size::lively(&mut rng),
            _ => Size::small(&mut rng),
        };
        let model = random::model(&mut rng, size);
        let mut words = walk::start(&model);
        assert!(keeps_rules(&model, records(&words).unwrap()));
        let taste = if round % 3 == 0 { Taste::GROWING } else { Taste::PLAIN };
        for _ in 0..80 {
            let mv = walk::next_move(&mut rng, &model, &words, taste);
            let before = words.clone();
            match step::step(&model, &mut words, mv) {
                Ok(()) => made += 1,
                Err(_) => {
                    refused += 1;
                    assert_eq!(before, words);
                }
            }
            assert!(keeps_rules(&model, records(&words).unwrap()), "{mv:?}");
            assert!(changed_boxes(&before, &words).iter().all(|box_no| mv.names_box(*box_no)));
        }
    }
    assert!(made > 3_000 && refused > 500, "{made} {refused}");
}

/// What a state holds is foreseen by the estimate.
fn foreseen(model: &Model, estimate: &Estimate, words: &[u32]) -> bool {
    let records = records(words).unwrap();
    let boxes = records.iter().zip(&estimate.boxes).take(model.boxes().len());
    boxes.into_iter().all(|(record, sets)| {
        let record = Record(record);
        let sites = record.sites().all(|site| {
            let subject = site.subject().name();
            let iota = if site.hidden() { sets.hidden } else { sets.shown };
            let ty = site.type_words().iter().all(|word| sets.eps(subject).has(Held(*word).name()));
            iota.has(subject) && ty
        });
        let threads = record.threads().all(|thread| {
            let names = model.listed().into_iter().filter(|name| thread.binding(*name) != 0);
            let holds = |name: NameNo| estimate.rho(name).has(Held(thread.binding(name)).name());
            names.into_iter().all(holds)
        });
        sites && threads
    })
}

/// Accepted estimates foresee every state of a run. An estimate of empty
/// sets foresees none, so the comparison can fail.
#[test]
fn accepted_estimates_foresee_runs() {
    let mut rng = Rng::new(6);
    for round in 0..150 {
        let size = if round % 2 == 0 { Size::small(&mut rng) } else { Size::lively(&mut rng) };
        let model = random::model(&mut rng, size);
        let estimate = least::least(&model);
        let mut words = walk::start(&model);
        for _ in 0..50 {
            let mv = walk::next_move(&mut rng, &model, &words, Taste::PLAIN);
            let _ = step::step(&model, &mut words, mv);
            assert!(foreseen(&model, &estimate, &words));
        }
        assert!(!foreseen(&model, &Estimate::EMPTY, &words));
    }
}

#[test]
fn runs_are_steps() {
    let mut rng = Rng::new(8);
    for _ in 0..40 {
        let size = Size::small(&mut rng);
        let model = random::model(&mut rng, size);
        let image = Draft::of(&model).image();
        let start = walk::start(&model);
        let mut walked = start.clone();
        let moves = walk::walk(&mut rng, &model, &mut walked, 50, Taste::PLAIN);
        let (mut ran, mut answers) = (start.clone(), vec![0; moves.len()]);
        calls::run(&image, &mut ran, &moves, &mut answers).unwrap();
        let mut stepped = vec![0; STATE_WORDS];
        calls::start(&image, &mut stepped).unwrap();
        let step = |mv: &Move| {
            let answer = calls::step(&image, &mut stepped, *mv);
            answer.map_or_else(|refusal| refusal.cause.number(), |()| 0)
        };
        let one_by_one: Vec<u8> = moves.iter().map(step).collect();
        assert_eq!(answers, one_by_one);
        assert_eq!(ran, stepped);
        assert_eq!(ran, walked);
    }
}
