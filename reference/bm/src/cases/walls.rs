//! Estimates in which clauses 8 and 9 have much to ask for: a line hides or
//! shows again several names, and the shown and hidden names are drawn.

use super::rng::Rng;
use crate::estimate::Estimate;
use crate::least;
use crate::model::{Line, Model};
use crate::names::{NameNo, NameSet};

/// The names on which the lines of a box hide or show.
fn switched(model: &Model, box_no: usize) -> impl Iterator<Item = NameNo> {
    model.boxes()[box_no].lines().iter().filter_map(|line| match *line {
        Line::Hide { on, .. } | Line::Unhide { on, .. } => Some(on),
        _ => None,
    })
}

/// The least accepted estimate above this one in which such a name may be
/// some names more.
pub fn widened(rng: &mut Rng, model: &Model, estimate: &Estimate) -> Estimate {
    let mut wide = estimate.clone();
    for name in (0..model.boxes().len()).flat_map(|box_no| switched(model, box_no)) {
        for _ in 0..rng.between(1, 5) {
            let more = NameNo(rng.below(model.kinds().len()) as u8);
            wide.rho[name.index()] = wide.rho(name).with(more);
        }
    }
    least::least_above(model, wide)
}

/// The estimate with other shown and hidden names: those of the least one,
/// and any of those that the lines of the box may hide or show.
pub fn redrawn(rng: &mut Rng, model: &Model, estimate: &Estimate) -> Estimate {
    let (least, mut other) = (least::least(model), estimate.clone());
    for box_no in 0..model.boxes().len() {
        let sets = switched(model, box_no).map(|name| estimate.rho(name));
        let names = sets.fold(NameSet::EMPTY, NameSet::union);
        let mut any = || names.into_iter().filter(|_| rng.percent(50)).collect();
        other.boxes[box_no].shown = least.boxes[box_no].shown.union(any());
        other.boxes[box_no].hidden = least.boxes[box_no].hidden.union(any());
    }
    other
}
