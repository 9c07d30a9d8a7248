//! Moves.

/// The kinds of moves; the value is the kind's number.
#[derive(Clone, Copy, PartialEq, Eq, Hash, Debug)]
#[repr(u32)]
pub enum MoveKind {
    /// A thread at nil is removed.
    Drop = 1,
    /// A parallel line becomes two threads.
    Spread = 2,
    /// A restricted name is made.
    New = 3,
    /// A replication gives one more copy.
    Copy = 4,
    /// A site is added.
    Expose = 5,
    /// A shown site is hidden.
    Hide = 6,
    /// A hidden site is shown.
    Unhide = 7,
    /// One thread of a box receives what another sends.
    Intra = 8,
    /// A thread of one box receives what a thread of another box sends.
    Inter = 9,
}

/// A move: five numbers, any whatever. A kind ignores those that it does not
/// use; a move whose kind, box or thread does not exist is refused with
/// [`Nobody`](crate::Cause::Nobody).
///
/// ```
/// use brothmaple::{Move, MoveKind};
///
/// let numbers = Move { kind: 9, box_no: 0, thread: 1, second_box: 2, second_thread: 3 };
/// assert_eq!(Move::inter(0, 1, 2, 3), numbers);
/// assert_eq!(Move::inside(MoveKind::Spread, 4, 5).kind, 2);
/// ```
#[derive(Clone, Copy, PartialEq, Eq, Hash, Debug)]
#[repr(C)]
pub struct Move {
    /// The kind's number: a [`MoveKind`], or any other number.
    pub kind: u32,
    /// The box.
    pub box_no: u32,
    /// The thread in it.
    pub thread: u32,
    /// The second box, which inter uses.
    pub second_box: u32,
    /// The second thread, which intra and inter use.
    pub second_thread: u32,
}

impl Move {
    /// A move of one thread: any kind from drop to unhide.
    pub const fn inside(kind: MoveKind, box_no: u32, thread: u32) -> Move {
        Move { kind: kind as u32, box_no, thread, second_box: 0, second_thread: 0 }
    }

    /// In one box, the first thread receives what the second sends.
    pub const fn intra(box_no: u32, receiver: u32, sender: u32) -> Move {
        Move { second_thread: sender, ..Move::inside(MoveKind::Intra, box_no, receiver) }
    }

    /// A thread of the first box receives what a thread of the second sends.
    pub const fn inter(box_no: u32, receiver: u32, second_box: u32, sender: u32) -> Move {
        let kind = MoveKind::Inter as u32;
        Move { kind, box_no, thread: receiver, second_box, second_thread: sender }
    }
}
