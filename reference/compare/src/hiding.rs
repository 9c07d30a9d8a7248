//! Answers that would be others if clauses 8 and 9 asked for all of rho(p), and not only for the names on the box's wall.

use bm::model::Line;
use bm::{Broken, Estimate, Model};

/// What the answer would be, and what it is instead.
pub const OUTCOMES: [&str; 6] = [
    "8 instead of accepted",
    "9 instead of accepted",
    "8 instead of a later clause",
    "9 instead of a later clause",
    "8 with a lower name",
    "9 with a lower name",
];

/// The first line that hides a name of rho(p) which hidden(b) lacks, or shows again one which shown(b) lacks.
fn first_short(model: &Model, estimate: &Estimate) -> Option<Broken> {
    model.boxes().iter().zip(&estimate.boxes).enumerate().find_map(|(box_no, (def, sets))| {
        def.lines().iter().enumerate().find_map(|(record, line)| {
            let (clause, lacking) = match *line {
                Line::Hide { on, .. } => (8, estimate.rho(on).minus(sets.hidden)),
                Line::Unhide { on, .. } => (9, estimate.rho(on).minus(sets.shown)),
                _ => return None,
            };
            Some(Broken { clause, box_no, record, missing: lacking.lowest()? })
        })
    })
}

/// Which of [`OUTCOMES`] it is, for a pair that is accepted or breaks a clause.
pub fn outcome(model: &Model, estimate: &Estimate, broken: Option<Broken>) -> Option<usize> {
    let other = first_short(model, estimate)?;
    let of_clause = usize::from(other.clause) - 8;
    let Some(broken) = broken else { return Some(of_clause) };
    // Lines come after names and sites.
    let place = |at: Broken| (at.box_no, at.clause > 2, at.record);
    if place(other) < place(broken) {
        return Some(2 + of_clause);
    }
    (place(other) == place(broken) && other.missing < broken.missing).then_some(4 + of_clause)
}

#[cfg(test)]
mod tests {
    use bm::cases::crafted;
    use bm::{NameNo, NameSet, clauses, least};

    use super::*;

    /// What y may be is drawn by hand, and so are the shown names and the hidden ones.
    fn told(text: &str, [may_be, shown, hidden]: [u64; 3]) -> Option<usize> {
        let model = crafted::model(text);
        let mut estimate = least::least(&model);
        estimate.rho[4] = NameSet(may_be);
        (estimate.boxes[0].shown, estimate.boxes[0].hidden) = (NameSet(shown), NameSet(hidden));
        outcome(&model, &estimate, clauses::check(&model, &estimate).err())
    }

    #[test]
    fn outcomes_are_told() {
        let hide = "free x c a b received y box site x {c} x(y).hide y.0";
        let unhide = "free x c a b received y box site x {c} x(y).unhide y.0";
        for (text, at) in [(hide, 0), (unhide, 1)] {
            assert_eq!(told(text, [0b0100, 0b0001, 0]), Some(at));
            assert_eq!(told(text, [0b0100, 0, 0]), None);
        }
        assert_eq!(told(hide, [0b1100, 0b1001, 0]), Some(4));
        assert_eq!(told(hide, [0b1100, 0b1101, 0]), None);
        assert_eq!(told(unhide, [0b1100, 0b0001, 0b1000]), Some(5));
        let both = "free x c a b received y box site x {c} x(y).hide y.unhide y.0";
        assert_eq!(told(both, [0b1100, 0b0001, 0b0100]), Some(2));
    }

    /// The clause that is broken instead stands in a later box.
    #[test]
    fn a_later_box_is_later() {
        let text = "free x c a b u received y
            box site x {c} x(y).unhide a.0
            box site u {c} 0";
        let model = crafted::model(text);
        let mut estimate = least::least(&model);
        estimate.boxes[1].shown = NameSet::one(NameNo(3));
        let broken = clauses::check(&model, &estimate).unwrap_err();
        assert_eq!(broken.to_string(), "clause 2 1 0 4");
        assert_eq!(outcome(&model, &estimate, Some(broken)), Some(3));
    }
}
