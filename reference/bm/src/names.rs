//! Names: their numbers, kinds and sets, and the held names of a run.

use std::fmt;

/// The most names that a model lists.
pub const MAX_NAMES: usize = 60;

/// The largest stamp of a made name, of 26 bits: name 59 with this stamp is
/// the largest held name, and fits its word.
pub const MAX_STAMP: u32 = 67_108_863;

/// A name's number: its place in the model's list.
#[derive(Clone, Copy, PartialEq, Eq, PartialOrd, Ord, Hash, Debug)]
pub struct NameNo(pub u8);

impl NameNo {
    /// The number as an index.
    pub fn index(self) -> usize {
        usize::from(self.0)
    }
}

impl fmt::Display for NameNo {
    fn fmt(&self, f: &mut fmt::Formatter<'_>) -> fmt::Result {
        self.0.fmt(f)
    }
}

/// What a name is.
#[derive(Clone, Copy, PartialEq, Eq, Hash, Debug)]
pub enum NameKind {
    Free = 0,
    Restricted = 1,
    Received = 2,
    Exposed = 3,
}

impl NameKind {
    /// The kind with this number, if there is one.
    pub fn from_number(number: u64) -> Option<NameKind> {
        match number {
            0 => Some(NameKind::Free),
            1 => Some(NameKind::Restricted),
            2 => Some(NameKind::Received),
            3 => Some(NameKind::Exposed),
            _ => None,
        }
    }
}

/// A set of name numbers below 64, one bit a name.
#[derive(Clone, Copy, PartialEq, Eq, Hash, Default, Debug)]
pub struct NameSet(pub u64);

impl NameSet {
    pub const EMPTY: NameSet = NameSet(0);

    /// The names with numbers below `count`.
    pub fn first(count: usize) -> NameSet {
        match count {
            0..64 => NameSet((1 << count) - 1),
            _ => NameSet(u64::MAX),
        }
    }

    /// The set of one name.
    pub fn one(name: NameNo) -> NameSet {
        debug_assert!(name.0 < 64);
        NameSet(1 << (name.0 & 63))
    }

    pub fn has(self, name: NameNo) -> bool {
        name.0 < 64 && self.0 >> name.0 & 1 == 1
    }

    pub fn is_empty(self) -> bool {
        self.0 == 0
    }

    pub fn len(self) -> usize {
        self.0.count_ones() as usize
    }

    pub fn with(self, name: NameNo) -> NameSet {
        NameSet(self.0 | NameSet::one(name).0)
    }

    pub fn without(self, name: NameNo) -> NameSet {
        NameSet(self.0 & !NameSet::one(name).0)
    }

    pub fn union(self, other: NameSet) -> NameSet {
        NameSet(self.0 | other.0)
    }

    pub fn meet(self, other: NameSet) -> NameSet {
        NameSet(self.0 & other.0)
    }

    pub fn minus(self, other: NameSet) -> NameSet {
        NameSet(self.0 & !other.0)
    }

    /// Whether the two sets share a name.
    pub fn shares(self, other: NameSet) -> bool {
        self.0 & other.0 != 0
    }

    /// Whether all names of this set are in the other.
    pub fn within(self, other: NameSet) -> bool {
        self.0 & !other.0 == 0
    }

    /// The lowest name of this set that the other lacks.
    pub fn lowest_missing_in(self, other: NameSet) -> Option<NameNo> {
        self.minus(other).lowest()
    }

    /// The lowest name.
    pub fn lowest(self) -> Option<NameNo> {
        (self.0 != 0).then(|| NameNo(self.0.trailing_zeros() as u8))
    }
}

impl FromIterator<NameNo> for NameSet {
    fn from_iter<I: IntoIterator<Item = NameNo>>(names: I) -> NameSet {
        names.into_iter().fold(NameSet::EMPTY, NameSet::with)
    }
}

impl IntoIterator for NameSet {
    type Item = NameNo;
    type IntoIter = Names;

    fn into_iter(self) -> Names {
        Names(self)
    }
}

/// The names of a set, ascending.
#[derive(Clone, Debug)]
pub struct Names(NameSet);

impl Iterator for Names {
    type Item = NameNo;

    fn next(&mut self) -> Option<NameNo> {
        let name = self.0.lowest()?;
        self.0.0 &= self.0.0 - 1;
        Some(name)
    }
}

/// Prints as `{1,4,5}`.
impl fmt::Display for NameSet {
    fn fmt(&self, f: &mut fmt::Formatter<'_>) -> fmt::Result {
        f.write_str("{")?;
        for (place, name) in self.into_iter().enumerate() {
            let comma = if place == 0 { "" } else { "," };
            write!(f, "{comma}{name}")?;
        }
        f.write_str("}")
    }
}

/// A held name as its word: 1 + number + 64 times stamp. The word 0 holds
/// none.
#[derive(Clone, Copy, PartialEq, Eq, PartialOrd, Ord, Hash, Debug)]
pub struct Held(pub u32);

impl Held {
    /// The name with this number and stamp.
    pub fn new(name: NameNo, stamp: u32) -> Held {
        Held(1 + u32::from(name.0) + 64 * stamp)
    }

    /// The free name with this number: its stamp is 0.
    pub fn free(name: NameNo) -> Held {
        Held::new(name, 0)
    }

    /// The number, below 64.
    pub fn name(self) -> NameNo {
        NameNo((self.0.wrapping_sub(1) % 64) as u8)
    }

    pub fn stamp(self) -> u32 {
        self.0.wrapping_sub(1) / 64
    }
}
