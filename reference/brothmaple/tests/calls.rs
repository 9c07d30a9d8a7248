//! The calls on the examples' images, on damaged ones, and on buffers of wrong lengths.

use std::fs;
use std::path::{Path, PathBuf};

use brothmaple::example::{ESTIMATE, MODEL};
use brothmaple::state::{NameNo, RECORD_WORDS, STATE_WORDS, record};
use brothmaple::{Cause, Image, Move, MoveKind, Refusal, Verdict, new_state};

const SPREAD: Move = Move::inside(MoveKind::Spread, 0, 0);

fn unplaced(cause: Cause) -> Refusal {
    Refusal { cause, first: 0, second: 0 }
}

fn started() -> Box<[u32]> {
    let mut state = new_state();
    brothmaple::start(MODEL, &mut state).unwrap();
    state
}

fn lines(state: &[u32], box_no: usize) -> Vec<u32> {
    record(state, box_no).unwrap().threads().map(|thread| thread.line()).collect()
}

fn y(state: &[u32]) -> Option<NameNo> {
    let thread = record(state, 0).unwrap().threads().next().unwrap();
    thread.binding(NameNo(2)).map(|held| held.name())
}

/// The folders of examples, each with two images.
fn folders() -> Vec<PathBuf> {
    let examples = concat!(env!("CARGO_MANIFEST_DIR"), "/../../examples");
    let entries =
        |folder: PathBuf| fs::read_dir(folder).unwrap().map(|entry| entry.unwrap().path());
    entries(PathBuf::from(examples))
        .filter(|group| group.is_dir())
        .flat_map(entries)
        .filter(|folder| folder.join("model.blk").exists())
        .collect()
}

fn images(folder: &Path) -> (Vec<u8>, Vec<u8>) {
    let read = |name: &str| fs::read(folder.join(name)).unwrap();
    (read("model.blk"), read("estimate.blk"))
}

fn numbers(text: &str) -> Vec<u32> {
    text.split_whitespace().map(|number| number.parse().unwrap()).collect()
}

/// The lists of moves of a folder, each with the answers to be expected.
fn lists(folder: &Path) -> Vec<(Vec<Move>, Vec<u32>)> {
    let names = fs::read_dir(folder).unwrap().map(|entry| entry.unwrap().path());
    let stems =
        names.filter_map(|path| path.to_str()?.strip_suffix(".moves.txt").map(String::from));
    stems
        .map(|stem| {
            let moves = numbers(&fs::read_to_string(format!("{stem}.moves.txt")).unwrap());
            let moves = moves.as_chunks().0.iter().map(
                |&[kind, box_no, thread, second_box, second_thread]| Move {
                    kind,
                    box_no,
                    thread,
                    second_box,
                    second_thread,
                },
            );
            (moves.collect(), numbers(&fs::read_to_string(format!("{stem}.answers.txt")).unwrap()))
        })
        .collect()
}

#[test]
fn verdicts_of_the_examples() {
    let folders = folders();
    assert_eq!(folders.len(), 13);
    for folder in folders {
        let (model, estimate) = images(&folder);
        let expected = fs::read_to_string(folder.join("expected.txt")).unwrap();
        assert_eq!(brothmaple::check(&model, &estimate).to_string(), expected.trim_end());
        assert_eq!(brothmaple::read_estimate(&model, &estimate), Ok(()));
        assert_eq!(brothmaple::refused_block(&model, &estimate), None);
    }
}

#[test]
fn shut_off_of_the_examples() {
    let mut asked = 0;
    for folder in folders() {
        let Ok(expected) = fs::read_to_string(folder.join("shut-off-1.txt")) else { continue };
        let (model, estimate) = images(&folder);
        assert_eq!(brothmaple::shut_off(&model, &estimate, 1).to_string(), expected.trim_end());
        asked += 1;
    }
    assert_eq!(asked, 3);
}

#[test]
fn runs_of_the_examples_are_their_steps() {
    let mut runs = 0;
    for folder in folders() {
        let (model, _) = images(&folder);
        for (moves, expected) in lists(&folder) {
            let [mut run, mut steps] = [new_state(), new_state()];
            brothmaple::start(&model, &mut run).unwrap();
            brothmaple::start(&model, &mut steps).unwrap();
            let mut answers = vec![99; moves.len()];
            let answers = brothmaple::run(&model, &mut run, &moves, &mut answers).unwrap();
            assert!(answers.bytes().iter().copied().map(u32::from).eq(expected));
            for (&step, answer) in moves.iter().zip(answers.iter()) {
                assert_eq!(brothmaple::step(&model, &mut steps, step), answer.map_err(unplaced));
            }
            assert_eq!(run, steps);
            runs += 1;
        }
    }
    assert_eq!(runs, 9);
}

#[test]
fn starred_moves_of_k() {
    let mut state = started();
    brothmaple::step(MODEL, &mut state, SPREAD).unwrap();
    assert_eq!((lines(&state, 0), y(&state)), (vec![1, 3], None));

    let mut intra = state.clone();
    brothmaple::step(MODEL, &mut intra, Move::intra(0, 0, 1)).unwrap();
    assert_eq!(
        (lines(&intra, 0), lines(&intra, 1), y(&intra)),
        (vec![2, 4], vec![0], Some(NameNo(1)))
    );

    let mut inter = state.clone();
    brothmaple::step(MODEL, &mut inter, Move::inter(0, 0, 1, 0)).unwrap();
    assert_eq!(
        (lines(&inter, 0), lines(&inter, 1), y(&inter)),
        (vec![2, 3], vec![1], Some(NameNo(4)))
    );

    for (step, cause) in [
        (Move::intra(0, 0, 0), Cause::OneSelf),
        (Move::intra(0, 1, 0), Cause::WrongLine),
        (Move::inter(0, 0, 0, 1), Cause::OneSelf),
        (Move::inter(0, 0, 1, 1), Cause::Nobody),
        (Move::inter(0, 0, 2, 0), Cause::Nobody),
        (Move::inter(0, 2, 1, 0), Cause::Nobody),
        (Move { kind: 10, ..SPREAD }, Cause::Nobody),
        (Move { box_no: u32::MAX, ..SPREAD }, Cause::Nobody),
    ] {
        let before = state.clone();
        assert_eq!(brothmaple::step(MODEL, &mut state, step), Err(unplaced(cause)), "{step:?}");
        assert_eq!(state, before);
    }
}

/// The cell displays the antigen a2 (number 7) as the type of a new site u (number 11).
#[test]
fn the_site_that_the_cell_exposes() {
    let folder = folders().into_iter().find(|folder| folder.ends_with("unrecognised")).unwrap();
    let (model, _) = images(&folder);
    let [(moves, _)] = &lists(&folder)[..] else { panic!("one list of moves") };
    let mut state = new_state();
    brothmaple::start(&model, &mut state).unwrap();
    brothmaple::run(&model, &mut state, moves, &mut vec![0; moves.len()]).unwrap();
    let cell = record(&state, 0).unwrap();
    assert_eq!(cell.last_stamp(), 1);
    let [_, site] = cell.sites().collect::<Vec<_>>()[..] else { panic!("two sites") };
    let subject = site.subject().unwrap();
    assert_eq!((subject.name(), subject.stamp(), site.is_shown()), (NameNo(11), 1, true));
    assert!(site.type_names().map(|held| (held.name(), held.stamp())).eq([(NameNo(7), 0)]));
}

#[test]
fn each_damaged_block_is_handed_back_where_it_stands() {
    for image in [Image::Model, Image::Estimate] {
        let right = if image == Image::Model { MODEL } else { ESTIMATE };
        for block in 0..right.len() / 512 {
            let mut damaged = right.to_vec();
            damaged[512 * block + 300] ^= 0x40;
            let (model, estimate) = if image == Image::Model {
                (&damaged[..], ESTIMATE)
            } else {
                (MODEL, &damaged[..])
            };
            let refused = brothmaple::refused_block(model, estimate).unwrap();
            assert_eq!((refused.image, refused.cause, refused.block), (image, Cause::Check, block));
            assert_eq!(refused.bytes.as_ptr_range(), damaged[512 * block..][..512].as_ptr_range());
            let Verdict::Refused(told) = brothmaple::check(model, estimate) else { panic!() };
            assert_eq!((told.image, told.refusal.first), (image, block as u32));
        }
    }
}

#[test]
fn buffers_of_wrong_lengths() {
    let length = Err(unplaced(Cause::Length));
    assert_eq!(brothmaple::read_model(&[]), length);
    assert_eq!(brothmaple::start(&[], &mut []), length);
    assert_eq!(brothmaple::step(&[], &mut [], SPREAD), length);
    assert_eq!(brothmaple::run(&[], &mut [], &[], &mut []).map(|_| ()), length);
    assert_eq!(brothmaple::check(&[], &[]).to_string(), "refused model 1 0 0");
    assert_eq!(brothmaple::check(MODEL, &[]).to_string(), "refused estimate 1 0 0");
    assert_eq!(brothmaple::refused_block(&[], &[]), None);

    let room = Err(unplaced(Cause::Room));
    for words in [0, STATE_WORDS - 1, STATE_WORDS + 1] {
        let mut state = vec![7; words];
        assert_eq!(brothmaple::start(MODEL, &mut state), room);
        assert_eq!(brothmaple::step(MODEL, &mut state, SPREAD), room);
        assert_eq!(brothmaple::run(MODEL, &mut state, &[], &mut []).map(|_| ()), room);
        assert!(state.iter().all(|&word| word == 7));
    }
    for count in [0, 2] {
        let mut answers = vec![7; count];
        assert_eq!(
            brothmaple::run(MODEL, &mut started(), &[SPREAD], &mut answers).map(|_| ()),
            room
        );
        assert!(answers.iter().all(|&answer| answer == 7));
    }
}

#[test]
fn one_image_as_both() {
    assert_eq!(brothmaple::check(MODEL, MODEL).to_string(), "refused estimate 3 0 0");
    let refused = brothmaple::refused_block(MODEL, MODEL).unwrap();
    assert_eq!((refused.image, refused.cause, refused.block), (Image::Estimate, Cause::Heading, 0));
}

#[test]
fn spoilt_states_are_left_as_they_are() {
    for (place, word) in [(0, 67_108_864), (1, 17), (2, 17), (4, 2), (2 * RECORD_WORDS, 1)] {
        let mut state = started();
        state[place] = word;
        let before = state.clone();
        let spoilt = Err(unplaced(Cause::Spoilt));
        assert_eq!(brothmaple::step(MODEL, &mut state, SPREAD), spoilt);
        let mut answers = [7];
        assert_eq!(brothmaple::run(MODEL, &mut state, &[SPREAD], &mut answers).map(|_| ()), spoilt);
        assert_eq!((state, answers), (before, [7]));
    }
}

#[test]
fn calls_from_many_threads() {
    std::thread::scope(|scope| {
        for _ in 0..8 {
            scope.spawn(|| {
                for _ in 0..200 {
                    assert_eq!(brothmaple::check(MODEL, ESTIMATE), Verdict::Accepted);
                    let mut state = started();
                    brothmaple::step(MODEL, &mut state, SPREAD).unwrap();
                    assert_eq!(lines(&state, 0), [1, 3]);
                }
            });
        }
    });
}
