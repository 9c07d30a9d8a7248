//! How often each kind of answer, move and state came. A comparison that never saw some kind has not compared it.

use bm::cases::change::Change;
use bm::cases::odd::ODDITIES;
use bm::cases::spoil::SPOILINGS;
use bm::names::{Held, MAX_STAMP, NameNo};
use bm::step::move_kind;
use bm::{Cause, Move, Refusal, ShutOff, Verdict};

use crate::hiding::OUTCOMES;
use crate::names::STANDINGS;
use crate::runs::LENDINGS;

/// Each kind is to come so often at least.
const FEWEST: u64 = 1_000;
/// Of a hundred verdicts, so many are to be acceptances at least, and so many alike at most.
const ACCEPTED_IN_HUNDRED: u64 = 15;
const ALIKE_IN_HUNDRED: u64 = 20;

/// Kinds of one sort, and how often each came.
pub struct Counts {
    sort: &'static str,
    kinds: Vec<(String, u64)>,
}

impl Counts {
    fn named<'a>(sort: &'static str, names: impl IntoIterator<Item = &'a str>) -> Counts {
        let kinds = names.into_iter().map(|name| (name.to_string(), 0));
        Counts { sort, kinds: kinds.collect() }
    }

    /// Kinds that have numbers, one after the other; 0 is what is not refused.
    fn numbered(sort: &'static str, numbers: impl Iterator<Item = u8>) -> Counts {
        Counts { sort, kinds: numbers.map(|number| (number.to_string(), 0)).collect() }
    }

    fn of_changes(sort: &'static str, changes: &[Change]) -> Counts {
        Counts::named(sort, changes.iter().map(|change| change.name))
    }

    /// Counts one more of the kind at this place.
    pub fn add(&mut self, place: usize) {
        self.kinds[place].1 += 1;
    }

    fn counts(&self) -> impl Iterator<Item = u64> {
        self.kinds.iter().map(|(_, count)| *count)
    }

    fn print(&self) {
        let kinds = self.kinds.iter().map(|(name, count)| format!("{name}: {count}"));
        println!("  {}: {}", self.sort, kinds.collect::<Vec<String>>().join(", "));
    }

    /// The kinds for which this holds of the count, each with its sort and count.
    fn such(&self, holds: impl Fn(u64) -> bool) -> Vec<String> {
        let kinds = self.kinds.iter().filter(|(_, count)| holds(*count));
        kinds.map(|(name, count)| format!("{} {name} ({count})", self.sort)).collect()
    }
}

/// The number of an answer: 0 for what is not refused.
fn number(answer: Result<(), Refusal>) -> usize {
    answer.err().map_or(0, |why| why.cause.number().into())
}

/// Verdicts and answers to the question, on damaged images.
pub struct Verdicts {
    accepted: Counts,
    clauses: Counts,
    of_model: Counts,
    of_estimate: Counts,
    question: Counts,
    /// Broken clauses where another order than the document's would give another name.
    pub names: Counts,
    /// Answers that would be others if clauses 8 and 9 asked for more.
    pub hiding: Counts,
}

impl Verdicts {
    fn new() -> Verdicts {
        Verdicts {
            accepted: Counts::named("estimates", ["accepted"]),
            clauses: Counts::numbered("clause broken", 1..=9),
            of_model: Counts::numbered("model refused", 1..=9),
            of_estimate: Counts::numbered("estimate refused", 1..=5),
            question: Counts::named("shut off", ["yes", "no", "no such box"]),
            names: Counts::named("missing name, and", STANDINGS),
            hiding: Counts::named("with 8 and 9 for all of rho(p)", OUTCOMES),
        }
    }

    pub fn note(&mut self, verdict: Verdict, answer: ShutOff) {
        match verdict {
            Verdict::Accepted => self.accepted.add(0),
            Verdict::Broken(broken) => self.clauses.add(usize::from(broken.clause) - 1),
            Verdict::RefusedModel(why) => self.of_model.add(number(Err(why)) - 1),
            Verdict::RefusedEstimate(why) => self.of_estimate.add(number(Err(why)) - 1),
        }
        match answer {
            ShutOff::Yes => self.question.add(0),
            ShutOff::No => self.question.add(1),
            ShutOff::NoBox => self.question.add(2),
            ShutOff::Not(_) => {}
        }
    }

    fn verdicts(&self) -> [&Counts; 4] {
        [&self.accepted, &self.clauses, &self.of_model, &self.of_estimate]
    }

    /// Verdicts that came too often beside others.
    fn out_of_balance(&self) -> Vec<String> {
        let all: u64 = self.verdicts().iter().flat_map(|counts| counts.counts()).sum();
        let often = |count: u64| count * 100 > all * ALIKE_IN_HUNDRED;
        let seldom = |count: u64| count * 100 < all * ACCEPTED_IN_HUNDRED;
        let often = self.verdicts().into_iter().flat_map(|counts| counts.such(often));
        often.chain(self.accepted.such(seldom)).collect()
    }
}

/// What an inter move may meet of 16, 17 and 18.
const INTER_CAUSES: [(&str, &[Cause]); 5] = [
    ("16 alone", &[Cause::NoSite]),
    ("17 alone", &[Cause::Unfit]),
    ("18 alone", &[Cause::Private]),
    ("18 and 16", &[Cause::Private, Cause::NoSite]),
    ("18 and 17", &[Cause::Private, Cause::Unfit]),
];

/// Stamps that are to be given by both moves that give one: the first beyond 16 bits, and the last.
const STAMPS: [(&str, u32, u32); 4] = [
    ("new, 65,536", move_kind::NEW, 1 << 16),
    ("expose, 65,536", move_kind::EXPOSE, 1 << 16),
    ("new, the last", move_kind::NEW, MAX_STAMP),
    ("expose, the last", move_kind::EXPOSE, MAX_STAMP),
];

/// Calls on lent states.
pub struct Calls {
    pub starts: Counts,
    pub steps: Counts,
    pub made: Counts,
    pub inter: Counts,
    pub stamps: Counts,
    /// The largest held name.
    pub largest: Counts,
    pub spoilt: Counts,
    pub odd: Counts,
    /// States with words changed at random.
    pub changed: Counts,
}

impl Calls {
    fn new() -> Calls {
        Calls {
            starts: Counts::numbered("start answered", 0..=10),
            steps: Counts::numbered("step answered", 0..=20),
            made: Counts::numbered("kind of move made", 1..=9),
            inter: Counts::named("inter move meets", INTER_CAUSES.map(|(name, _)| name)),
            stamps: Counts::named("stamp given", STAMPS.map(|(name, ..)| name)),
            largest: Counts::named("largest held name", ["made"]),
            spoilt: Counts::of_changes("state spoilt", SPOILINGS),
            odd: Counts::of_changes("state odd and in order", ODDITIES),
            changed: Counts::named("words changed", ["spoilt", "in order"]),
        }
    }

    pub fn started(&mut self, answer: Result<(), Refusal>) {
        self.starts.add(number(answer));
    }

    pub fn stepped(&mut self, mv: Move, answer: Result<(), Refusal>) {
        self.steps.add(number(answer));
        if answer.is_ok() {
            self.made.add(mv.kind as usize - 1);
        }
    }

    /// A move gave a stamp and left this record.
    pub fn named(&mut self, mv: Move, record: &[u32]) {
        let given = |(_, kind, stamp): &(&str, u32, u32)| (*kind, *stamp) == (mv.kind, record[0]);
        if let Some(at) = STAMPS.iter().position(given) {
            self.stamps.add(at);
        }
        if record.contains(&Held::new(NameNo(59), MAX_STAMP).0) {
            self.largest.add(0);
        }
    }

    /// An inter move was refused with one of 16, 17 and 18, and meets these.
    pub fn inter_refused(&mut self, met: &[Cause]) {
        let at = INTER_CAUSES.iter().position(|(_, causes)| *causes == met);
        self.inter.add(at.expect("18, 16 or 17, or 18 and one of these"));
    }
}

/// Runs, and the moves of those that are not refused.
pub struct Runs {
    answered: Counts,
    passed_over: Counts,
    made: Counts,
    pub lent: Counts,
}

impl Runs {
    fn new() -> Runs {
        Runs {
            answered: Counts::numbered("run answered", 0..=11),
            passed_over: Counts::numbered("move of a run passed over", 12..=20),
            made: Counts::numbered("kind of move made in a run", 1..=9),
            lent: Counts::named("run with", LENDINGS),
        }
    }

    pub fn ran(&mut self, moves: &[Move], answers: &[u8], answer: Result<(), Refusal>) {
        self.answered.add(number(answer));
        for (mv, answer) in moves.iter().zip(answers).filter(|_| answer.is_ok()) {
            match *answer {
                0 => self.made.add(mv.kind as usize - 1),
                refused => self.passed_over.add(usize::from(refused) - 12),
            }
        }
    }
}

pub struct Tally {
    pub verdicts: Verdicts,
    pub calls: Calls,
    pub runs: Runs,
}

impl Tally {
    pub fn new() -> Tally {
        Tally { verdicts: Verdicts::new(), calls: Calls::new(), runs: Runs::new() }
    }

    fn counts(&self) -> Vec<&Counts> {
        let Calls { starts, steps, made, inter, stamps, largest, spoilt, odd, changed } =
            &self.calls;
        let Runs { answered, passed_over, made: made_in_runs, lent } = &self.runs;
        let mut counts = self.verdicts.verdicts().to_vec();
        counts.extend([&self.verdicts.names, &self.verdicts.hiding, &self.verdicts.question]);
        counts.extend([starts, steps, made, inter, stamps, largest]);
        counts.extend([spoilt, odd, changed]);
        counts.extend([answered, passed_over, made_in_runs, lent]);
        counts
    }

    pub fn print(&self) {
        self.counts().iter().for_each(|counts| counts.print());
    }

    /// The kinds that came too seldom or too often.
    pub fn faults(&self) -> Vec<String> {
        let seldom = |counts: &&Counts| counts.such(|count| count < FEWEST);
        let mut faults: Vec<String> = self.counts().iter().flat_map(seldom).collect();
        faults.extend(self.verdicts.out_of_balance());
        faults
    }
}

#[cfg(test)]
mod tests {
    use super::*;

    fn fill(counts: &mut Counts, count: u64) {
        counts.kinds.iter_mut().for_each(|kind| kind.1 = count);
    }

    fn fill_runs(runs: &mut Runs, count: u64) {
        let Runs { answered, passed_over, made, lent } = runs;
        [answered, passed_over, made, lent].into_iter().for_each(|counts| fill(counts, count));
    }

    /// A tally in which each kind came often enough, and no verdict too often.
    fn sound() -> Tally {
        let mut tally = Tally::new();
        let Verdicts { accepted, clauses, of_model, of_estimate, question, names, hiding } =
            &mut tally.verdicts;
        let Calls { starts, steps, made, inter, stamps, largest, spoilt, odd, changed } =
            &mut tally.calls;
        let others = [clauses, of_model, of_estimate, question, names, starts, steps, made];
        let more = [hiding, inter, stamps, largest, spoilt, odd, changed];
        others.into_iter().chain(more).for_each(|counts| fill(counts, FEWEST));
        fill(accepted, 5 * FEWEST);
        fill_runs(&mut tally.runs, FEWEST);
        tally
    }

    #[test]
    fn nothing_noted_is_all_faults() {
        let tally = Tally::new();
        let kinds: usize = tally.counts().iter().map(|counts| counts.kinds.len()).sum();
        assert_eq!(tally.faults().len(), kinds);
    }

    #[test]
    fn a_kind_too_seldom_is_a_fault() {
        assert_eq!(sound().faults(), Vec::<String>::new());
        let mut tally = sound();
        tally.calls.made.kinds[6].1 = FEWEST - 1;
        assert_eq!(tally.faults(), ["kind of move made 7 (999)"]);
        let mut tally = sound();
        tally.calls.odd.kinds[1].1 = 0;
        assert_eq!(tally.faults(), ["state odd and in order no_thread (0)"]);
    }

    #[test]
    fn causes_of_inter_moves_are_counted() {
        let mut calls = Tally::new().calls;
        calls.inter_refused(&[Cause::Private, Cause::Unfit]);
        calls.inter_refused(&[Cause::Unfit]);
        assert_eq!(calls.inter.counts().collect::<Vec<u64>>(), [0, 1, 0, 0, 1]);
    }

    #[test]
    fn stamps_given_are_counted() {
        let mut calls = Tally::new().calls;
        let [new, expose] = [3, 5].map(|kind| Move::new([kind, 0, 0, 0, 0]));
        calls.named(new, &[65_536, 1, 0]);
        calls.named(new, &[65_535, 1, 0]);
        calls.named(expose, &[67_108_863, 4_294_967_291]);
        calls.named(expose, &[67_108_863, 4_294_967_292]);
        assert_eq!(calls.stamps.counts().collect::<Vec<u64>>(), [1, 0, 0, 2]);
        assert_eq!(calls.largest.counts().collect::<Vec<u64>>(), [1]);
    }

    #[test]
    fn verdicts_too_much_alike_are_faults() {
        let mut tally = sound();
        tally.verdicts.clauses.kinds[4].1 = 10 * FEWEST;
        let faults = ["clause broken 5 (10000)", "estimates accepted (5000)"];
        assert_eq!(tally.faults(), faults);
    }
}
