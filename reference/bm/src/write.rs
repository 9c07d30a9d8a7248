//! Writing models and estimates as images.

use crate::block::{BLOCK, kind, seal};
use crate::estimate::{Estimate, HIDDEN_WORD, SHOWN_WORD};
use crate::model::{LINES_A_BLOCK, Line, LineNo, Model, Site};
use crate::names::{NameKind, NameNo, NameSet};

/// A model on its way to an image. Nothing in it has been tested.
#[derive(Clone, PartialEq, Eq, Debug, Default)]
pub struct Draft {
    pub kinds: Vec<NameKind>,
    pub boxes: Vec<DraftBox>,
}

/// A box of a draft.
#[derive(Clone, PartialEq, Eq, Debug, Default)]
pub struct DraftBox {
    pub sites: Vec<Site>,
    pub lines: Vec<Line>,
}

impl Draft {
    /// The draft that says what a model says.
    pub fn of(model: &Model) -> Draft {
        let boxes = model.boxes().iter();
        let boxes =
            boxes.map(|def| DraftBox { sites: def.sites().to_vec(), lines: def.lines().to_vec() });
        Draft { kinds: model.kinds().to_vec(), boxes: boxes.collect() }
    }

    /// The image. Lists beyond the limits of a block lose their ends.
    pub fn image(&self) -> Vec<u8> {
        let mut image = ImageWriter::default();
        let head = image.block(kind::HEAD, 0, 0);
        put_word(head, 0, self.kinds.len() as u64);
        put_word(head, 1, self.boxes.len() as u64);
        for (at, kind) in self.kinds.iter().enumerate().take(60) {
            put_word(head, 2 + at, *kind as u64);
        }
        for (box_no, def) in self.boxes.iter().enumerate() {
            def.write(&mut image, box_no);
        }
        image.finish()
    }
}

impl DraftBox {
    fn write(&self, image: &mut ImageWriter, box_no: usize) {
        let sites = image.block(kind::SITES, box_no, self.sites.len());
        for (at, site) in self.sites.iter().enumerate().take(LINES_A_BLOCK) {
            sites[8 + 16 * at..24 + 16 * at].copy_from_slice(&site_record(site));
        }
        let full = self.lines.len() / LINES_A_BLOCK;
        for part in 0..=full.min(3) {
            let lines = self.lines.iter().skip(part * LINES_A_BLOCK).take(LINES_A_BLOCK);
            let block = image.block(kind::LINES, box_no, lines.len());
            for (at, line) in lines.enumerate() {
                block[8 + 16 * at..24 + 16 * at].copy_from_slice(&line_record(line));
            }
        }
    }
}

/// A site's record of 16 bytes.
pub fn site_record(site: &Site) -> [u8; 16] {
    let mut record = [0; 16];
    record[0] = site.subject.0;
    record[1] = u8::from(site.hidden);
    record[8..].copy_from_slice(&site.ty.0.to_le_bytes());
    record
}

/// A line's record of 16 bytes.
pub fn line_record(line: &Line) -> [u8; 16] {
    let none = (NameNo(0), NameNo(0), NameSet::EMPTY);
    let (operation, (first, second, ty)) = match *line {
        Line::Nil => (0, none),
        Line::Parallel { .. } => (1, none),
        Line::Replicate { .. } => (2, none),
        Line::Restrict { name, .. } => (3, (name, none.1, none.2)),
        Line::Output { on, of, .. } => (4, (on, of, none.2)),
        Line::Input { on, into, .. } => (5, (on, into, none.2)),
        Line::Expose { name, ty, .. } => (6, (name, none.1, ty)),
        Line::Hide { on, .. } => (7, (on, none.1, none.2)),
        Line::Unhide { on, .. } => (8, (on, none.1, none.2)),
    };
    let mut children = line.children();
    let mut child = || children.next().unwrap_or(LineNo(0)).0.to_le_bytes();
    let mut record = [0; 16];
    record[..3].copy_from_slice(&[operation, first.0, second.0]);
    record[4..6].copy_from_slice(&child());
    record[6..8].copy_from_slice(&child());
    record[8..].copy_from_slice(&ty.0.to_le_bytes());
    record
}

impl Estimate {
    /// The image for a model of this many boxes.
    pub fn image(&self, boxes: usize) -> Vec<u8> {
        let mut image = ImageWriter::default();
        put_sets(image.block(kind::RHO, 0, 0), &self.rho);
        for (box_no, sets) in self.boxes[..boxes].iter().enumerate() {
            let block = image.block(kind::EPSILON, box_no, 0);
            put_sets(block, &sets.eps);
            put_word(block, SHOWN_WORD, sets.shown.0);
            put_word(block, HIDDEN_WORD, sets.hidden.0);
            put_sets(image.block(kind::KAPPA, box_no, 0), &sets.kap);
        }
        image.finish()
    }
}

/// Writes word `index` of the 62.
pub fn put_word(block: &mut [u8; BLOCK], index: usize, word: u64) {
    block[8 + 8 * index..16 + 8 * index].copy_from_slice(&word.to_le_bytes());
}

fn put_sets(block: &mut [u8; BLOCK], sets: &[NameSet]) {
    for (at, set) in sets.iter().enumerate() {
        put_word(block, at, set.0);
    }
}

/// The blocks of an image in the making.
#[derive(Default)]
struct ImageWriter(Vec<[u8; BLOCK]>);

impl ImageWriter {
    /// Appends a block with this heading.
    fn block(&mut self, kind: u8, box_no: usize, count: usize) -> &mut [u8; BLOCK] {
        let mut block = [0; BLOCK];
        block[..2].copy_from_slice(&(self.0.len() as u16).to_le_bytes());
        block[2] = kind;
        block[3] = box_no as u8;
        block[4..6].copy_from_slice(&(count as u16).to_le_bytes());
        self.0.push(block);
        self.0.last_mut().expect("a block was just pushed")
    }

    /// The image, each block with its check.
    fn finish(mut self) -> Vec<u8> {
        self.0.iter_mut().for_each(seal);
        self.0.concat()
    }
}
