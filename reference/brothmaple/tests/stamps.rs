//! Stamps past 16 bits and up to the last one, and a whole run from a start to the last one.

use std::fs;

use brothmaple::state::{Held, NameNo, record};
use brothmaple::{Cause, Move, MoveKind, Refusal, new_state};

/// The largest stamp.
const LAST: u32 = 67_108_863;

const SPREAD: Move = Move::inside(MoveKind::Spread, 0, 0);
const COPY_NEW: Move = Move::inside(MoveKind::Copy, 0, 0);
const COPY_EXPOSE: Move = Move::inside(MoveKind::Copy, 0, 1);
/// Moves of the thread that was copied.
const NEW: Move = Move::inside(MoveKind::New, 0, 2);
const EXPOSE: Move = Move::inside(MoveKind::Expose, 0, 2);
const DROP: Move = Move::inside(MoveKind::Drop, 0, 2);

/// A model of 60 names, the last two of which box 0 makes over and over: 58 by expose, 59 by new.
fn model() -> Vec<u8> {
    let path = concat!(env!("CARGO_MANIFEST_DIR"), "/../../crates/test_moves/data/stamps.blk");
    fs::read(path).unwrap()
}

/// A start, after which box 0's two replications stand as threads 0 and 1.
fn started(model: &[u8]) -> Box<[u32]> {
    let mut state = new_state();
    brothmaple::start(model, &mut state).unwrap();
    brothmaple::step(model, &mut state, SPREAD).unwrap();
    state
}

/// The number and the stamp of a name made with the stamp after this one, or the refusal.
fn made_after(stamp: u32, copy: Move, make: Move, name: NameNo) -> Result<Held, Cause> {
    let model = model();
    let mut state = started(&model);
    state[0] = stamp;
    let mut step = |mv| brothmaple::step(&model, &mut state, mv).map_err(|why| why.cause);
    step(copy)?;
    step(make)?;
    let box_0 = record(&state, 0).unwrap();
    assert_eq!(box_0.last_stamp(), stamp + 1);
    Ok(box_0.threads().nth(2).unwrap().binding(name).unwrap())
}

#[test]
fn past_16_bits_and_to_the_last() {
    for (copy, make, name) in [(COPY_EXPOSE, EXPOSE, NameNo(58)), (COPY_NEW, NEW, NameNo(59))] {
        let made = |stamp| made_after(stamp, copy, make, name);
        for stamp in [0, 65_534, 65_535, 65_536, LAST - 2, LAST - 1] {
            let held = made(stamp).unwrap();
            assert_eq!((held.name(), held.stamp()), (name, stamp + 1));
        }
        assert_eq!(made(LAST), Err(Cause::Spent));
        assert_eq!(made(LAST + 1), Err(Cause::Spoilt));
        assert_eq!(made(u32::MAX), Err(Cause::Spoilt));
    }
    let largest = made_after(LAST - 1, COPY_NEW, NEW, NameNo(59)).unwrap();
    assert_eq!(Held::in_word(4_294_967_292), Some(largest));
}

/// Each name is made and dropped again, as in a run over night: no move is refused before the last stamp is given.
#[test]
fn from_a_start_to_the_last_stamp() {
    let (model, names) = (model(), 1 << 13);
    let list = [COPY_NEW, NEW, DROP].repeat(names);
    let mut answers = vec![0; list.len()];
    let mut state = started(&model);
    let mut given = 0;
    while given < LAST {
        let count = names.min((LAST - given) as usize);
        let (moves, answers) = (&list[..3 * count], &mut answers[..3 * count]);
        let answers = brothmaple::run(&model, &mut state, moves, answers).unwrap();
        assert!(answers.bytes().iter().all(|answer| *answer == 0));
        given += count as u32;
        assert_eq!(record(&state, 0).unwrap().last_stamp(), given);
    }
    brothmaple::step(&model, &mut state, COPY_NEW).unwrap();
    let spent = Refusal { cause: Cause::Spent, first: 0, second: 0 };
    assert_eq!(brothmaple::step(&model, &mut state, NEW), Err(spent));
}
