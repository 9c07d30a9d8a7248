//! Model K and estimate E.

use crate::estimate::Estimate;
use crate::model::{Line, LineNo, Site};
use crate::names::{NameKind, NameNo, NameSet};
use crate::write::{Draft, DraftBox};

pub const X: NameNo = NameNo(0);
pub const Z: NameNo = NameNo(1);
pub const Y: NameNo = NameNo(2);
pub const U: NameNo = NameNo(3);
pub const V: NameNo = NameNo(4);
pub const C: NameNo = NameNo(5);

/// Model K.
pub fn model() -> Draft {
    let mut kinds = vec![NameKind::Free; 6];
    kinds[Y.index()] = NameKind::Received;
    let site = |subject| Site { subject, hidden: false, ty: NameSet::one(C) };
    let first = vec![
        Line::Parallel { first: LineNo(1), second: LineNo(3) },
        Line::Input { on: X, into: Y, next: LineNo(2) },
        Line::Nil,
        Line::Output { on: X, of: Z, next: LineNo(4) },
        Line::Nil,
    ];
    let second = vec![Line::Output { on: U, of: V, next: LineNo(1) }, Line::Nil];
    let boxes = vec![
        DraftBox { sites: vec![site(X)], lines: first },
        DraftBox { sites: vec![site(U)], lines: second },
    ];
    Draft { kinds, boxes }
}

/// Estimate E.
pub fn estimate() -> Estimate {
    let mut e = Estimate::EMPTY;
    for free in [X, Z, U, V, C] {
        e.rho[free.index()] = NameSet::one(free);
    }
    e.rho[Y.index()] = NameSet::one(Z).with(V);
    for (box_no, subject, sent) in [(0, X, Z), (1, U, V)] {
        let sets = &mut e.boxes[box_no];
        sets.shown = NameSet::one(subject);
        sets.eps[subject.index()] = NameSet::one(C);
        sets.kap[subject.index()] = NameSet::one(sent);
    }
    e
}
