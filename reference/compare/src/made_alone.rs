//! What it takes to make a move, apart from deciding it: a run of moves that are all made, less a run of the same moves from a state
//! that differs in what the last test of each finds, so that all are refused; on both sides in the same way. Both states have as many
//! threads and sites, so that the state rules take the same. Copies and spreads are refused last only where threads are more, hides and
//! unhides only where the search for a site finds none, so those four kinds have no such row.

use std::ops::Range;

use bm::model::{Line, LineNo, Site};
use bm::names::MAX_STAMP;
use bm::shape::MAX_TYPE;
use bm::state::{RecordMut, records_mut};
use bm::step::move_kind;
use bm::write::{Draft, DraftBox};
use bm::{Cause, Held, Model, Move, NameKind, NameNo, NameSet};

use crate::move_speed::{Scene, read};
use crate::proved;
use crate::timing::{self, Apart, Measured};

/// How many boxes each model has, all alike; their subjects are the first names.
const BOXES: u8 = 8;
/// A free name that is the type of every starting site.
const SHARED: NameNo = NameNo(BOXES);
/// Where the type of a record's first site begins: after the last stamp, two counts, the subject, and whether it is hidden.
const TYPE_AT: usize = 5;

/// The names of a box: its subject, and two that its lines may bind.
#[derive(Clone, Copy)]
struct Own {
    subject: NameNo,
    one: NameNo,
    two: NameNo,
}

impl Own {
    fn of(box_no: u8) -> Own {
        let [subject, one, two] = [0, BOXES + 1, 2 * BOXES + 1].map(|from| NameNo(from + box_no));
        Own { subject, one, two }
    }
}

/// Moves that are made from one state and refused from another.
struct Case {
    name: &'static str,
    /// The kinds of the two names that a box may bind.
    kinds: [NameKind; 2],
    /// The lines of a box, each the child of the one before; the last is nil.
    lines: fn(Own) -> Vec<Line>,
    /// Writes a box's record, the start's before, for moves that are made or for moves that are refused.
    state: fn(Own, &mut RecordMut<'_>, bool),
    /// The moves of a box.
    moves: fn(u32) -> Vec<Move>,
    refused: Cause,
}

const CASES: [Case; 6] = [
    Case {
        name: "drop",
        kinds: [NameKind::Received; 2],
        lines: |own| vec![Line::Hide { on: own.subject, next: LineNo(1) }, Line::Nil],
        state: |_, record, made| put(record, 0..16, if made { 1 } else { 0 }, &[]),
        moves: |box_no| vec![Move::new([move_kind::DROP, box_no, 0, 0, 0]); 16],
        refused: Cause::WrongLine,
    },
    Case {
        name: "new",
        kinds: [NameKind::Restricted; 2],
        lines: |own| vec![Line::Restrict { name: own.one, next: LineNo(1) }, Line::Nil],
        state: |_, record, made| {
            put(record, 0..16, 0, &[]);
            put_stamp(record, made);
        },
        moves: |box_no| each_thread(16, move_kind::NEW, box_no),
        refused: Cause::Spent,
    },
    exposes("expose, one name in the type", |own| expose(own, NameSet::one(SHARED))),
    exposes("expose, eight names in the type", |own| expose(own, NameSet::first(8))),
    Case {
        name: "intra",
        kinds: [NameKind::Received; 2],
        lines: |own| {
            let Own { subject, one, two } = own;
            vec![
                Line::Input { on: subject, into: one, next: LineNo(1) },
                Line::Input { on: one, into: two, next: LineNo(2) },
                Line::Output { on: subject, of: SHARED, next: LineNo(3) },
                Line::Nil,
            ]
        },
        state: |own, record, made| {
            let (shared, subject) = (Held::free(SHARED), Held::free(own.subject));
            put(record, 0..8, 1, &[(own.one, if made { subject } else { shared })]);
            put(record, 8..16, 2, &[(own.one, shared), (own.two, shared)]);
        },
        moves: |box_no| (0..8).map(|at| pass(move_kind::INTRA, (box_no, at), box_no)).collect(),
        refused: Cause::Channel,
    },
    Case {
        name: "inter",
        kinds: [NameKind::Restricted, NameKind::Received],
        lines: |own| {
            let Own { subject, one, two } = own;
            vec![
                Line::Restrict { name: one, next: LineNo(1) },
                Line::Input { on: subject, into: two, next: LineNo(2) },
                Line::Output { on: subject, of: two, next: LineNo(3) },
                Line::Nil,
            ]
        },
        state: |own, record, made| {
            let private = (own.one, Held::new(own.one, 1));
            put(record, 0..8, 1, &[private]);
            put(record, 8..16, 2, &[private, (own.two, Held::free(SHARED))]);
            put_type(record, own, made);
        },
        moves: |box_no| {
            let far = (box_no + 1) % u32::from(BOXES);
            (0..8).map(|at| pass(move_kind::INTER, (box_no, at), far)).collect()
        },
        refused: Cause::Unfit,
    },
];

/// Exposes, as many as sites still fit in, with the type that the lines give.
const fn exposes(name: &'static str, lines: fn(Own) -> Vec<Line>) -> Case {
    Case {
        name,
        kinds: [NameKind::Exposed; 2],
        lines,
        state: |_, record, made| {
            put(record, 0..15, 0, &[]);
            put_stamp(record, made);
        },
        moves: |box_no| each_thread(15, move_kind::EXPOSE, box_no),
        refused: Cause::Spent,
    }
}

fn expose(own: Own, ty: NameSet) -> Vec<Line> {
    vec![Line::Expose { name: own.one, ty, next: LineNo(1) }, Line::Nil]
}

/// Puts threads at a line, with bindings. A record has its first thread already.
fn put(record: &mut RecordMut<'_>, threads: Range<usize>, line: u16, bindings: &[(NameNo, Held)]) {
    for at in threads {
        if at > 0 {
            record.append_thread(0, LineNo(line));
        }
        record.set_line(at, LineNo(line));
        bindings.iter().for_each(|(name, held)| record.bind(at, *name, *held));
    }
}

/// Leaves no stamp where moves are to be refused.
fn put_stamp(record: &mut RecordMut<'_>, made: bool) {
    record.0[0] = if made { 0 } else { MAX_STAMP };
}

/// Gives the first site of a record a type of eight names that its box made; the last is one that box 0 made, and so in every type, or,
/// where moves are to be refused, its own. So all words of two types are compared in either case.
fn put_type(record: &mut RecordMut<'_>, own: Own, made: bool) {
    let mut names = [own.one; MAX_TYPE];
    names[MAX_TYPE - 1] = if made { Own::of(0).one } else { own.one };
    for (word, (name, stamp)) in record.0[TYPE_AT..].iter_mut().zip(names.into_iter().zip(1..)) {
        *word = Held::new(name, stamp).0;
    }
    record.0[0] = MAX_TYPE as u32;
}

/// A move of each thread by itself.
fn each_thread(threads: u32, kind: u32, box_no: u32) -> Vec<Move> {
    (0..threads).map(|thread| Move::new([kind, box_no, thread, 0, 0])).collect()
}

/// What a thread of the first eight of a box receives from the second eight of a box.
fn pass(kind: u32, (box_no, thread): (u32, u32), far: u32) -> Move {
    Move::new([kind, box_no, thread, far, 8 + thread])
}

impl Case {
    fn model(&self) -> Model {
        let free = usize::from(SHARED.0) + 1;
        let mut kinds = vec![NameKind::Free; free];
        self.kinds.iter().for_each(|kind| kinds.extend([*kind; BOXES as usize]));
        let boxes = (0..BOXES).map(Own::of).map(|own| DraftBox {
            sites: vec![Site { subject: own.subject, hidden: false, ty: NameSet::one(SHARED) }],
            lines: (self.lines)(own),
        });
        read(&Draft { kinds, boxes: boxes.collect() })
    }

    fn scene(&self, made: bool) -> Scene {
        Scene::new(self.name, self.model(), |_, words| {
            let records = records_mut(words).expect("a state");
            for (own, record) in (0..BOXES).map(Own::of).zip(records) {
                (self.state)(own, &mut RecordMut(record), made);
            }
        })
    }

    /// The state from which all moves of the list are made, the one from which all are refused, and the list.
    fn parts(&self) -> (Scene, Scene, Vec<Move>) {
        let (made, refused) = (self.scene(true), self.scene(false));
        let moves: Vec<Move> = (0..u32::from(BOXES)).flat_map(self.moves).collect();
        let all = |scene: &Scene, number: u8| scene.answers(&moves).iter().all(|at| *at == number);
        assert!(all(&made, 0) && all(&refused, self.refused.number()), "{}", self.name);
        (made, refused, moves)
    }

    fn bench(&self, measured: &mut Measured) {
        let (made, refused, moves) = self.parts();
        let list = proved::list(&moves);
        let (of_made, of_refused) =
            (|words: &mut [u32]| made.put_back(words), |words: &mut [u32]| refused.put_back(words));
        let proved = Apart {
            long: made.proved_run(&list, of_made),
            short: refused.proved_run(&list, of_refused),
        };
        let rust = Apart {
            long: made.rust_run(&moves, of_made),
            short: refused.rust_run(&moves, of_refused),
        };
        let times = timing::difference(proved, rust).each(moves.len());
        measured.note(made.named("a move made, alone"), times);
    }
}

pub fn bench(measured: &mut Measured) {
    CASES.iter().for_each(|case| case.bench(measured));
    measured.print_worst();
}

#[cfg(test)]
mod tests {
    use super::*;

    #[test]
    fn moves_are_all_made_or_all_refused() {
        for case in &CASES {
            let (.., moves) = case.parts();
            assert!(moves.len() >= 64, "{}", case.name);
        }
    }
}
