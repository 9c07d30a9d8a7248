//! The rules for one record of a model, and for a box's lines as a tree.

use crate::model::{Line, LineNo, Site};
use crate::names::{NameKind, NameNo, NameSet};

/// The most names of a type.
pub const MAX_TYPE: usize = 8;

/// The type set of a record: its last eight bytes.
fn type_set(record: &[u8; 16]) -> NameSet {
    let (words, _) = record.as_chunks::<8>();
    NameSet(u64::from_le_bytes(words[1]))
}

/// Whether a set is a type over these names for this subject.
fn is_type(ty: NameSet, names: NameSet, subject: NameNo) -> bool {
    (1..=MAX_TYPE).contains(&ty.len()) && ty.within(names) && !ty.has(subject)
}

/// Reads a site's record: its subject and type are free, and its subject is
/// none of those used before.
pub fn site(free: NameSet, used: NameSet, record: &[u8; 16]) -> Option<Site> {
    let subject = NameNo(record[0]);
    let ty = type_set(record);
    let right = free.has(subject)
        && !used.has(subject)
        && record[1] <= 1
        && record[2..8] == [0; 6]
        && is_type(ty, free, subject);
    right.then_some(Site { subject, hidden: record[1] == 1, ty })
}

/// Reads a line's record: refusal 7 on `None`.
pub fn line(kinds: &[NameKind], record: &[u8; 16]) -> Option<Line> {
    let fields = Fields::of(record);
    let line = fields.line()?;
    let listed = NameSet::first(kinds.len());
    let named = line.bound().map_or(line.used(), |name| line.used().with(name));
    let bound_as = |name: NameNo, kind| kinds.get(name.index()) == Some(&kind);
    let right = match line {
        Line::Restrict { name, .. } => bound_as(name, NameKind::Restricted),
        Line::Input { into, .. } => bound_as(into, NameKind::Received),
        Line::Expose { name, ty, .. } => {
            bound_as(name, NameKind::Exposed) && is_type(ty, listed, name)
        }
        _ => true,
    };
    (right && named.within(listed)).then_some(line)
}

/// The fields of a line's record.
struct Fields {
    operation: u8,
    first: u8,
    second: u8,
    zero: u8,
    child: LineNo,
    other_child: LineNo,
    ty: NameSet,
}

impl Fields {
    fn of(record: &[u8; 16]) -> Fields {
        Fields {
            operation: record[0],
            first: record[1],
            second: record[2],
            zero: record[3],
            child: LineNo(u16::from_le_bytes([record[4], record[5]])),
            other_child: LineNo(u16::from_le_bytes([record[6], record[7]])),
            ty: type_set(record),
        }
    }

    /// The line, if the operation is known, the names are below 64 and the
    /// unused fields are zero.
    fn line(&self) -> Option<Line> {
        let next = self.child;
        let (first, second) = (NameNo(self.first), NameNo(self.second));
        let line = match self.operation {
            0 => Line::Nil,
            1 => Line::Parallel { first: self.child, second: self.other_child },
            2 => Line::Replicate { next },
            3 => Line::Restrict { name: first, next },
            4 => Line::Output { on: first, of: second, next },
            5 => Line::Input { on: first, into: second, next },
            6 => Line::Expose { name: first, ty: self.ty, next },
            7 => Line::Hide { on: first, next },
            8 => Line::Unhide { on: first, next },
            _ => return None,
        };
        (self.first < 64 && self.second < 64 && self.unused_are_zero()).then_some(line)
    }

    fn unused_are_zero(&self) -> bool {
        let op = self.operation;
        let uses_first = op >= 3;
        let uses_second = op == 4 || op == 5;
        self.zero == 0
            && (uses_first || self.first == 0)
            && (uses_second || self.second == 0)
            && (op != 0 || self.child.0 == 0)
            && (op == 1 || self.other_child.0 == 0)
            && (op == 6 || self.ty.is_empty())
    }
}

/// A set of lines of a box, one bit a line.
type LineSet = u128;

/// The lowest line that names a child not after itself, past the end or
/// already named, or that, not being 0, no line of the box names.
pub fn tree_fault(lines: &[Line]) -> Option<usize> {
    let mut named: LineSet = 0;
    let bad = (0..lines.len()).find(|at| has_bad_child(lines, *at, &mut named));
    let all = (1 << lines.len()) - 1;
    if bad.is_none() && named | 1 == all {
        return None;
    }
    let named_at_all = lines.iter().flat_map(|line| line.children());
    let named_at_all = named_at_all.filter(|child| child.index() < lines.len());
    let named_at_all = named_at_all.fold(1, |set: LineSet, child| set | 1 << child.0);
    let orphan = (!named_at_all & all != 0).then(|| (!named_at_all).trailing_zeros() as usize);
    bad.into_iter().chain(orphan).min()
}

/// Whether a line names a child not after itself, past the end or named
/// already. The children are added to the named ones.
fn has_bad_child(lines: &[Line], at: usize, named: &mut LineSet) -> bool {
    lines[at].children().any(|child| {
        let child = child.index();
        if child <= at || child >= lines.len() || *named >> child & 1 == 1 {
            return true;
        }
        *named |= 1 << child;
        false
    })
}
