//! Models, and reading them from an image.

use crate::block::{BLOCK, Block, Blocks, WORDS, kind};
use crate::names::{MAX_NAMES, NameKind, NameNo, NameSet};
use crate::refusal::{Cause, Refusal};
use crate::shape;

/// The most boxes of a model.
pub const MAX_BOXES: usize = 8;
/// The most sites of a box, at the start and in a state.
pub const MAX_SITES: usize = 16;
/// The most lines of a box.
pub const MAX_LINES: usize = 124;
/// The records of a block of lines.
pub const LINES_A_BLOCK: usize = 31;
/// The most bytes of a model's image: the head and five blocks a box.
pub const MAX_MODEL: usize = BLOCK * (1 + 5 * MAX_BOXES);

/// A line's number within its box.
#[derive(Clone, Copy, PartialEq, Eq, PartialOrd, Ord, Hash, Debug)]
pub struct LineNo(pub u16);

impl LineNo {
    /// The number as an index.
    pub fn index(self) -> usize {
        usize::from(self.0)
    }
}

/// A starting site.
#[derive(Clone, Copy, PartialEq, Eq, Hash, Debug)]
pub struct Site {
    pub subject: NameNo,
    pub hidden: bool,
    pub ty: NameSet,
}

/// A line of a box's program.
#[derive(Clone, Copy, PartialEq, Eq, Hash, Debug)]
pub enum Line {
    Nil,
    Parallel { first: LineNo, second: LineNo },
    Replicate { next: LineNo },
    Restrict { name: NameNo, next: LineNo },
    Output { on: NameNo, of: NameNo, next: LineNo },
    Input { on: NameNo, into: NameNo, next: LineNo },
    Expose { name: NameNo, ty: NameSet, next: LineNo },
    Hide { on: NameNo, next: LineNo },
    Unhide { on: NameNo, next: LineNo },
}

impl Line {
    /// The children, first child first.
    pub fn children(self) -> impl Iterator<Item = LineNo> {
        let (first, second) = match self {
            Line::Nil => (None, None),
            Line::Parallel { first, second } => (Some(first), Some(second)),
            Line::Replicate { next }
            | Line::Restrict { next, .. }
            | Line::Output { next, .. }
            | Line::Input { next, .. }
            | Line::Expose { next, .. }
            | Line::Hide { next, .. }
            | Line::Unhide { next, .. } => (Some(next), None),
        };
        first.into_iter().chain(second)
    }

    /// The names that the line uses: they must be free or bound above.
    pub fn used(self) -> NameSet {
        match self {
            Line::Output { on, of, .. } => NameSet::one(on).with(of),
            Line::Input { on, .. } | Line::Hide { on, .. } | Line::Unhide { on, .. } => {
                NameSet::one(on)
            }
            Line::Expose { ty, .. } => ty,
            _ => NameSet::EMPTY,
        }
    }

    /// The name that the line binds below itself.
    pub fn bound(self) -> Option<NameNo> {
        match self {
            Line::Restrict { name, .. } | Line::Expose { name, .. } => Some(name),
            Line::Input { into, .. } => Some(into),
            _ => None,
        }
    }
}

/// A box: its starting sites and its lines.
#[derive(Clone, Debug)]
pub struct BoxDef {
    sites: [Site; MAX_SITES],
    site_count: u8,
    lines: [Line; MAX_LINES],
    line_count: u8,
    above: [NameSet; MAX_LINES],
}

impl BoxDef {
    const EMPTY: BoxDef = BoxDef {
        sites: [Site { subject: NameNo(0), hidden: false, ty: NameSet::EMPTY }; MAX_SITES],
        site_count: 0,
        lines: [Line::Nil; MAX_LINES],
        line_count: 0,
        above: [NameSet::EMPTY; MAX_LINES],
    };

    pub fn sites(&self) -> &[Site] {
        &self.sites[..usize::from(self.site_count)]
    }

    pub fn lines(&self) -> &[Line] {
        &self.lines[..usize::from(self.line_count)]
    }

    /// The names bound strictly above a line.
    pub fn above(&self, line: LineNo) -> NameSet {
        self.above[line.index()]
    }

    fn push_site(&mut self, site: Site) {
        self.sites[usize::from(self.site_count)] = site;
        self.site_count += 1;
    }

    fn push_line(&mut self, line: Line) {
        self.lines[usize::from(self.line_count)] = line;
        self.line_count += 1;
    }

    /// Notes the names bound above each line. Children come after their
    /// parents, so one pass does.
    fn note_above(&mut self) {
        for at in 0..usize::from(self.line_count) {
            let line = self.lines[at];
            let below = line.bound().map_or(self.above[at], |name| self.above[at].with(name));
            for child in line.children() {
                self.above[child.index()] = below;
            }
        }
    }
}

/// A model that the reader has accepted.
#[derive(Clone, Debug)]
pub struct Model {
    kinds: [NameKind; MAX_NAMES],
    name_count: u8,
    free: NameSet,
    boxes: [BoxDef; MAX_BOXES],
    box_count: u8,
    binder: [Option<u8>; MAX_NAMES],
}

impl Model {
    const EMPTY: Model = Model {
        kinds: [NameKind::Free; MAX_NAMES],
        name_count: 0,
        free: NameSet::EMPTY,
        boxes: [BoxDef::EMPTY; MAX_BOXES],
        box_count: 0,
        binder: [None; MAX_NAMES],
    };

    /// The kinds of the listed names, by number.
    pub fn kinds(&self) -> &[NameKind] {
        &self.kinds[..usize::from(self.name_count)]
    }

    /// The kind of a listed name.
    pub fn kind(&self, name: NameNo) -> NameKind {
        self.kinds()[name.index()]
    }

    /// The set of the listed names.
    pub fn listed(&self) -> NameSet {
        NameSet::first(usize::from(self.name_count))
    }

    /// The set of the free names.
    pub fn free(&self) -> NameSet {
        self.free
    }

    pub fn boxes(&self) -> &[BoxDef] {
        &self.boxes[..usize::from(self.box_count)]
    }

    /// The box whose lines bind a listed name, if any does.
    pub fn binder(&self, name: NameNo) -> Option<usize> {
        self.binder[name.index()].map(usize::from)
    }

    /// Reads a model's image: refusals 1 to 9.
    pub fn read(image: &[u8]) -> Result<Model, Refusal> {
        if !image.len().is_multiple_of(BLOCK) || image.len() < BLOCK || image.len() > MAX_MODEL {
            return Err(Cause::Length.at(0, 0));
        }
        let mut model = Model::EMPTY;
        let raw = model.read_blocks(image)?;
        model.read_sites(&raw)?;
        model.read_lines(&raw)?;
        model.hold_tree()?;
        model.hold_reach()?;
        Ok(model)
    }

    /// Reads heading by heading: refusals 1 to 5. Fills the list of names.
    fn read_blocks<'a>(&mut self, image: &'a [u8]) -> Result<RawBoxes<'a>, Refusal> {
        let mut blocks = Blocks::of(image);
        self.read_head(&mut blocks)?;
        let mut raw = RawBoxes::default();
        for (box_no, raw) in raw.iter_mut().enumerate().take(usize::from(self.box_count)) {
            *raw = RawBox::read(&mut blocks, box_no)?;
        }
        blocks.end()?;
        Ok(raw)
    }

    fn read_head(&mut self, blocks: &mut Blocks<'_>) -> Result<(), Refusal> {
        let head = blocks.take(kind::HEAD, 0)?;
        let (names, boxes) = (head.word(0), head.word(1));
        blocks.counted(head.count() == 0)?;
        blocks.counted(names <= MAX_NAMES as u64 && boxes <= MAX_BOXES as u64)?;
        (self.name_count, self.box_count) = (names as u8, boxes as u8);
        for at in 0..names as usize {
            let kind = NameKind::from_number(head.word(2 + at));
            self.kinds[at] = kind.ok_or(blocks.refuse(Cause::Count))?;
            if self.kinds[at] == NameKind::Free {
                self.free = self.free.with(NameNo(at as u8));
            }
        }
        blocks.clean(head.zero_from(2 + names as usize))
    }

    /// Refusal 6 over the whole model.
    fn read_sites(&mut self, raw: &RawBoxes<'_>) -> Result<(), Refusal> {
        let mut subjects = NameSet::EMPTY;
        for (box_no, raw) in raw[..usize::from(self.box_count)].iter().enumerate() {
            for (at, record) in raw.sites.iter().enumerate() {
                let site = shape::site(self.free, subjects, record);
                let site = site.ok_or(Cause::Site.at(box_no, at))?;
                subjects = subjects.with(site.subject);
                self.boxes[box_no].push_site(site);
            }
        }
        Ok(())
    }

    /// Refusal 7 over the whole model.
    fn read_lines(&mut self, raw: &RawBoxes<'_>) -> Result<(), Refusal> {
        for (box_no, raw) in raw[..usize::from(self.box_count)].iter().enumerate() {
            for (at, record) in raw.lines().enumerate() {
                let line = shape::line(self.kinds(), record);
                let line = line.ok_or(Cause::Line.at(box_no, at))?;
                self.boxes[box_no].push_line(line);
            }
        }
        Ok(())
    }

    /// Refusal 8 over the whole model.
    fn hold_tree(&mut self) -> Result<(), Refusal> {
        for box_no in 0..usize::from(self.box_count) {
            if let Some(at) = shape::tree_fault(self.boxes[box_no].lines()) {
                return Err(Cause::Tree.at(box_no, at));
            }
            self.boxes[box_no].note_above();
        }
        Ok(())
    }

    /// Refusal 9 over the whole model. Notes which box binds each name.
    fn hold_reach(&mut self) -> Result<(), Refusal> {
        for box_no in 0..usize::from(self.box_count) {
            let def = &self.boxes[box_no];
            for (at, line) in def.lines().iter().enumerate() {
                let known = self.free.union(def.above[at]);
                let again = |name: NameNo| self.binder[name.index()].is_some();
                if !line.used().within(known) || line.bound().is_some_and(again) {
                    return Err(Cause::Reach.at(box_no, at));
                }
                if let Some(name) = line.bound() {
                    self.binder[name.index()] = Some(box_no as u8);
                }
            }
        }
        Ok(())
    }
}

/// The records of one box as they stand in the image.
#[derive(Clone, Copy, Default)]
struct RawBox<'a> {
    sites: &'a [[u8; 16]],
    lines: [&'a [[u8; 16]]; 4],
}

type RawBoxes<'a> = [RawBox<'a>; MAX_BOXES];

impl<'a> RawBox<'a> {
    fn read(blocks: &mut Blocks<'a>, box_no: usize) -> Result<RawBox<'a>, Refusal> {
        let sites = blocks.take(kind::SITES, box_no)?;
        let mut raw =
            RawBox { sites: counted_records(blocks, sites, 1, MAX_SITES)?, ..RawBox::default() };
        for part in 0..raw.lines.len() {
            let lines = blocks.take(kind::LINES, box_no)?;
            let least = if part == 0 { 1 } else { 0 };
            raw.lines[part] = counted_records(blocks, lines, least, LINES_A_BLOCK)?;
            if raw.lines[part].len() < LINES_A_BLOCK {
                break;
            }
        }
        Ok(raw)
    }

    fn lines(&self) -> impl Iterator<Item = &'a [u8; 16]> {
        self.lines.into_iter().flatten()
    }
}

/// The counted records of the block taken last: refusals 4 and 5.
fn counted_records<'a>(
    blocks: &Blocks<'a>,
    block: Block<'a>,
    least: usize,
    most: usize,
) -> Result<&'a [[u8; 16]], Refusal> {
    let count = block.count();
    blocks.counted((least..=most).contains(&count))?;
    debug_assert!(2 * most <= WORDS);
    blocks.clean(block.zero_from(2 * count))?;
    Ok(&block.records()[..count])
}
