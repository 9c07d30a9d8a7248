//! Estimates, and reading them from an image.

use crate::block::{BLOCK, Block, Blocks, kind};
use crate::model::{MAX_BOXES, Model};
use crate::names::{MAX_NAMES, NameNo, NameSet};
use crate::refusal::{Cause, Refusal};

/// The word of a block of kind 5 that holds the box's shown names.
pub const SHOWN_WORD: usize = 60;
/// The word of a block of kind 5 that holds the box's hidden names.
pub const HIDDEN_WORD: usize = 61;

/// What an estimate says of one box.
#[derive(Clone, Copy, PartialEq, Eq, Debug)]
pub struct BoxSets {
    pub shown: NameSet,
    pub hidden: NameSet,
    pub eps: [NameSet; MAX_NAMES],
    pub kap: [NameSet; MAX_NAMES],
}

impl BoxSets {
    const EMPTY: BoxSets = BoxSets {
        shown: NameSet::EMPTY,
        hidden: NameSet::EMPTY,
        eps: [NameSet::EMPTY; MAX_NAMES],
        kap: [NameSet::EMPTY; MAX_NAMES],
    };

    /// The type names that the site of this name may have.
    pub fn eps(&self, name: NameNo) -> NameSet {
        self.eps[name.index()]
    }

    /// The names that may be sent on this name.
    pub fn kap(&self, name: NameNo) -> NameSet {
        self.kap[name.index()]
    }
}

/// A proposed estimate.
#[derive(Clone, PartialEq, Eq, Debug)]
pub struct Estimate {
    pub rho: [NameSet; MAX_NAMES],
    pub boxes: [BoxSets; MAX_BOXES],
}

impl Estimate {
    /// The estimate of empty sets.
    pub const EMPTY: Estimate =
        Estimate { rho: [NameSet::EMPTY; MAX_NAMES], boxes: [BoxSets::EMPTY; MAX_BOXES] };

    /// The length of an estimate's image for this many boxes.
    pub fn image_len(boxes: usize) -> usize {
        BLOCK * (1 + 2 * boxes)
    }

    /// The names that this name may stand for.
    pub fn rho(&self, name: NameNo) -> NameSet {
        self.rho[name.index()]
    }

    /// Reads an estimate's image for a model: refusals 1 to 5.
    pub fn read(model: &Model, image: &[u8]) -> Result<Estimate, Refusal> {
        let boxes = model.boxes().len();
        if image.len() != Estimate::image_len(boxes) {
            return Err(Cause::Length.at(0, 0));
        }
        let mut blocks = Blocks::of(image);
        let mut estimate = Estimate::EMPTY;
        let listed = model.listed();
        take_sets(&mut blocks, kind::RHO, 0, listed, &mut estimate.rho)?;
        for box_no in 0..boxes {
            let sets = &mut estimate.boxes[box_no];
            let block = take_sets(&mut blocks, kind::EPSILON, box_no, listed, &mut sets.eps)?;
            sets.shown = NameSet(block.word(SHOWN_WORD));
            sets.hidden = NameSet(block.word(HIDDEN_WORD));
            take_sets(&mut blocks, kind::KAPPA, box_no, listed, &mut sets.kap)?;
        }
        Ok(estimate)
    }
}

/// Takes a block of sets, one a name. The sets past the names must be empty
/// and the others within the names; so must shown and hidden names in a
/// block of kind 5, which are empty words in the others.
fn take_sets<'a>(
    blocks: &mut Blocks<'a>,
    kind: u8,
    box_no: usize,
    listed: NameSet,
    sets: &mut [NameSet; MAX_NAMES],
) -> Result<Block<'a>, Refusal> {
    let block = blocks.take(kind, box_no)?;
    blocks.counted(block.count() == 0)?;
    for (at, set) in sets.iter_mut().enumerate() {
        *set = NameSet(block.word(at));
        let room = if listed.has(NameNo(at as u8)) { listed } else { NameSet::EMPTY };
        blocks.clean(set.within(room))?;
    }
    let room = if kind == kind::EPSILON { listed } else { NameSet::EMPTY };
    for word in [SHOWN_WORD, HIDDEN_WORD] {
        blocks.clean(NameSet(block.word(word)).within(room))?;
    }
    Ok(block)
}
