//! Where the comparison stands, how many calls of the proved library it made, and the differences that it found.

use bm::cases::rng::Rng;

use crate::options::Plan;
use crate::tally::Tally;

/// How many differences are printed; those after are counted.
const PRINTED: u64 = 10;

/// A part of the comparison. Its number keeps its cases apart from those of other parts.
#[derive(Clone, Copy)]
pub struct Part {
    pub name: &'static str,
    pub number: u64,
}

impl Part {
    /// The seed of this part's cases.
    pub fn seed(self, plan: Plan) -> u64 {
        plan.seed.wrapping_mul(16).wrapping_add(self.number)
    }
}

pub struct Report {
    pub plan: Plan,
    part: &'static str,
    case: u64,
    pub calls: u64,
    pub differences: u64,
    pub tally: Tally,
}

impl Report {
    pub fn new(plan: Plan) -> Report {
        Report { plan, part: "", case: 0, calls: 0, differences: 0, tally: Tally::new() }
    }

    /// Begins a case of a part: the source of its numbers.
    pub fn begin(&mut self, part: Part, case: u64) -> Rng {
        (self.part, self.case) = (part.name, case);
        Rng::for_case(part.seed(self.plan), case)
    }

    /// Counts a call of the proved library, and a difference where its answer or a buffer is not the other side's.
    pub fn call(&mut self, same: bool, what: impl FnOnce() -> String) {
        self.calls += 1;
        if same {
            return;
        }
        self.differences += 1;
        if self.differences <= PRINTED {
            let (Plan { cases, seed }, part, case) = (self.plan, self.part, self.case);
            println!(
                "DIFFERENCE in {part}, case {case} of --cases {cases} --seed {seed}: {}",
                what()
            );
        }
    }
}

#[cfg(test)]
mod tests {
    use super::*;

    #[test]
    fn differences_are_counted() {
        let mut report = Report::new(Plan::DEFAULT);
        report.begin(Part { name: "test", number: 0 }, 3);
        (0..30).for_each(|at| report.call(at % 2 == 0, || "not alike".to_string()));
        assert_eq!((report.calls, report.differences), (30, 15));
    }
}
