//! Each refusal, each pair of neighbours in their order, and the edges.

use bm::block::{BLOCK, seal};
use bm::cases::crafted::{self, PRIVATE_AND_MORE, REFUSED_MOVES, RefusedMove};
use bm::cases::{k, walk};
use bm::model::{Line, LineNo};
use bm::state::{RECORD_WORDS, Record, STATE_WORDS, records};
use bm::step::Session;
use bm::write::Draft;
use bm::{Cause, Held, Model, Move, NameKind, NameNo, NameSet, Refusal, calls};

/// K's image after changes to single bytes, each block's check made anew.
fn changed(changes: &[(usize, usize, u8)]) -> Vec<u8> {
    let mut image = k::model().image();
    let (blocks, _) = image.as_chunks_mut::<BLOCK>();
    for (block, at, byte) in changes {
        blocks[*block][*at] = *byte;
        seal(&mut blocks[*block]);
    }
    image
}

fn refusal(image: &[u8]) -> (u8, u32, u32) {
    let Refusal { cause, first, second } = Model::read(image).expect_err("a refusal");
    (cause.number(), first, second)
}

/// The byte of a field of record `at` in a block.
fn field(at: usize, field: usize) -> usize {
    8 + 16 * at + field
}

#[test]
fn length_before_check() {
    let mut image = changed(&[]);
    image[9] ^= 1;
    assert_eq!(refusal(&image), (2, 0, 0));
    image.truncate(700);
    assert_eq!(refusal(&image), (1, 0, 0));
    assert_eq!(refusal(&[]), (1, 0, 0));
    assert_eq!(refusal(&[0; 511]), (1, 0, 0));
    assert_eq!(refusal(&[0; 512]), (2, 0, 0));
    assert_eq!(refusal(&[0; 20_992]), (2, 0, 0));
    assert_eq!(refusal(&[0; 21_504]), (1, 0, 0));
}

#[test]
fn missing_blocks_are_at_their_number() {
    let image = changed(&[]);
    assert_eq!(image.len(), 5 * BLOCK);
    for kept in 1..5 {
        assert_eq!(refusal(&image[..kept * BLOCK]), (1, kept as u32, 0));
    }
    let mut image = changed(&[]);
    image[BLOCK + 20] ^= 1;
    assert_eq!(refusal(&image[..4 * BLOCK]), (2, 1, 0));
}

#[test]
fn check_before_heading() {
    for (at, byte) in [(0, 9), (1, 1), (2, 7), (3, 1), (6, 1), (7, 1)] {
        let mut image = changed(&[(1, at, byte)]);
        assert_eq!(refusal(&image), (3, 1, 0));
        image[BLOCK + 504] ^= 1;
        assert_eq!(refusal(&image), (2, 1, 0));
    }
}

#[test]
fn heading_before_count_before_stray() {
    assert_eq!(refusal(&changed(&[(0, 6, 1), (0, 8, 61)])), (3, 0, 0));
    assert_eq!(refusal(&changed(&[(0, 8, 61)])), (4, 0, 0));
    assert_eq!(refusal(&changed(&[(0, 4, 1), (0, 500, 1)])), (4, 0, 0));
    assert_eq!(refusal(&changed(&[(0, 500, 1)])), (5, 0, 0));
    assert_eq!(refusal(&changed(&[(0, 16, 9)])), (4, 0, 0));
    assert_eq!(refusal(&changed(&[(0, 8 + 16, 4)])), (4, 0, 0));
    assert_eq!(refusal(&changed(&[(1, 4, 17), (1, 490, 1)])), (4, 1, 0));
    assert_eq!(refusal(&changed(&[(1, 4, 0)])), (4, 1, 0));
    assert_eq!(refusal(&changed(&[(1, 490, 1)])), (5, 1, 0));
    assert_eq!(refusal(&changed(&[(2, 4, 32)])), (4, 2, 0));
    assert_eq!(refusal(&changed(&[(2, 4, 0)])), (4, 2, 0));
    assert_eq!(refusal(&changed(&[(2, 4, 3)])), (5, 2, 0));
}

#[test]
fn block_by_block() {
    assert_eq!(refusal(&changed(&[(1, 490, 1), (2, 6, 1)])), (5, 1, 0));
    let mut image = changed(&[(1, 490, 1)]);
    image[2 * BLOCK + 9] ^= 1;
    assert_eq!(refusal(&image), (5, 1, 0));
}

#[test]
fn stray_before_site() {
    let site = (1, field(0, 0), 2);
    assert_eq!(refusal(&changed(&[site])), (6, 0, 0));
    assert_eq!(refusal(&changed(&[site, (4, 500, 1)])), (5, 4, 0));
}

#[test]
fn site_then_line_then_tree_then_reach() {
    let site_of_1 = (3, field(0, 0), 0);
    let line_of_0 = (2, field(1, 0), 9);
    let line_of_1 = (4, field(0, 0), 9);
    let tree_of_0 = (2, field(0, 4), 0);
    let tree_of_1 = (4, field(0, 4), 0);
    let reach_of_0 = (2, field(3, 2), 2);
    assert_eq!(refusal(&changed(&[site_of_1])), (6, 1, 0));
    assert_eq!(refusal(&changed(&[line_of_0])), (7, 0, 1));
    assert_eq!(refusal(&changed(&[tree_of_0])), (8, 0, 0));
    assert_eq!(refusal(&changed(&[reach_of_0])), (9, 0, 3));
    assert_eq!(refusal(&changed(&[site_of_1, line_of_0])), (6, 1, 0));
    assert_eq!(refusal(&changed(&[line_of_1, tree_of_0])), (7, 1, 0));
    assert_eq!(refusal(&changed(&[tree_of_1, reach_of_0])), (8, 1, 0));
}

/// K's site of box 1, each field at and past its limit.
#[test]
fn each_fault_of_a_site() {
    let site = |at: usize, byte: u8| refusal(&changed(&[(3, field(0, at), byte)]));
    let right = changed(&[(3, field(0, 1), 1)]);
    assert!(Model::read(&right).unwrap().boxes()[1].sites()[0].hidden);
    let subjects = [0, 2, 6, 60, 63, 64, 255];
    assert!(subjects.iter().all(|subject| site(0, *subject) == (6, 1, 0)));
    assert!([2, 3, 255].iter().all(|byte| site(1, *byte) == (6, 1, 0)));
    assert!((2..8).all(|at| site(at, 1) == (6, 1, 0)));
    // No type; one with the subject, a received name, a name past the list.
    assert!([0, 0x28, 0x24, 0x60].iter().all(|ty| site(8, *ty) == (6, 1, 0)));
    assert_eq!(site(15, 0x80), (6, 1, 0));
    assert!(Model::read(&changed(&[(3, field(0, 8), 0x33)])).is_ok());
}

/// Types of eight and nine names, for sites and for expose lines.
#[test]
fn types_have_at_most_eight_names() {
    for (count, right) in [(8, true), (9, false)] {
        let ty: NameSet = (1..=count).map(NameNo).collect();
        let mut draft = chain(3);
        draft.kinds = vec![NameKind::Free; 12];
        draft.kinds[11] = NameKind::Exposed;
        draft.boxes[0].lines[0] = Line::Expose { name: NameNo(11), ty, next: LineNo(1) };
        let answer = Model::read(&draft.image()).err();
        assert_eq!(answer, (!right).then_some(Cause::Line.at(0, 0)));
        draft.boxes[0].sites[0].ty = ty;
        let answer = Model::read(&draft.image()).err();
        assert_eq!(answer, (!right).then_some(Cause::Site.at(0, 0)));
    }
}

/// K's lines of box 0, fields that are wrong one at a time.
#[test]
fn each_fault_of_a_line() {
    let line = |record: usize, at: usize, byte: u8| {
        refusal(&changed(&[(2, field(record, at), byte)])) == (7, 0, record as u32)
    };
    assert!((0..5).all(|record| line(record, 0, 9) && line(record, 3, 1)));
    // Names past the list, and an input into a free name.
    assert!([6, 60, 64, 255].iter().all(|name| line(1, 1, *name) && line(3, 2, *name)));
    assert!(line(1, 2, 0) && line(1, 2, 6));
    // Unused fields of nil, parallel and output.
    assert!([1, 2, 4, 5, 6, 7, 8, 15].iter().all(|at| line(2, *at, 1)));
    assert!([1, 2, 8, 15].iter().all(|at| line(0, *at, 1)));
    assert!([6, 7, 8, 15].iter().all(|at| line(3, *at, 1)));
    // Restrictions and exposures of names of other kinds: K has none right.
    for name in 0..6 {
        let turned = |operation: u8, ty: u8| {
            let fields = [(0, operation), (1, name), (2, 0), (8, ty)];
            refusal(&changed(&fields.map(|(at, byte)| (2, field(3, at), byte))))
        };
        assert_eq!(turned(3, 0), (7, 0, 3));
        assert_eq!(turned(6, 0x20), (7, 0, 3));
    }
}

/// The lowest line at fault, where a line that nobody names is below or
/// above the line that names wrongly.
#[test]
fn the_lowest_line_of_a_bad_tree() {
    let tree = |changes: &[(usize, usize, u8)]| {
        let changes: Vec<(usize, usize, u8)> =
            changes.iter().map(|(line, at, byte)| (2, field(*line, *at), *byte)).collect();
        refusal(&changed(&changes))
    };
    // K's lines: 0 parallel (1, 3), 1 input to 2, 3 output to 4.
    assert_eq!(tree(&[(1, 4, 1)]), (8, 0, 1));
    assert_eq!(tree(&[(1, 4, 5)]), (8, 0, 1));
    // 3 names 3 itself: 4 is named by none, 3 has the fault.
    assert_eq!(tree(&[(3, 4, 3)]), (8, 0, 3));
    // 3 names 2, which 1 names: named twice at 3.
    assert_eq!(tree(&[(3, 4, 2)]), (8, 0, 3));
    // 1 names 4: 2 is named by none, before 3 names 4 again.
    assert_eq!(tree(&[(1, 4, 4)]), (8, 0, 2));
    // 0 names 3 twice, and 1 twice.
    assert_eq!(tree(&[(0, 4, 3)]), (8, 0, 0));
    assert_eq!(tree(&[(0, 6, 1)]), (8, 0, 0));
    // 0 names 1 and 4, 4 names 3: the fault is 3's, which names 4 again.
    assert_eq!(tree(&[(0, 6, 4), (4, 0, 2), (4, 4, 3)]), (8, 0, 3));
    // The same with 3 a nil: 4 names 3, so 3 is not at fault, and 4 is.
    let later = [(0, 6, 4), (3, 0, 0), (3, 1, 0), (3, 2, 0), (3, 4, 0), (4, 0, 2), (4, 4, 3)];
    assert_eq!(tree(&later), (8, 0, 4));
}

#[test]
fn left_over_blocks() {
    let mut image = changed(&[]);
    image.extend_from_slice(&[0; BLOCK]);
    assert_eq!(refusal(&image), (2, 5, 0));
    let (blocks, _) = image.as_chunks_mut::<BLOCK>();
    seal(&mut blocks[5]);
    assert_eq!(refusal(&image), (3, 5, 0));
    image.extend_from_slice(&[0; BLOCK]);
    assert_eq!(refusal(&image), (3, 5, 0));
}

#[test]
fn estimate_refusals_come_after_the_model() {
    let model = k::model().image();
    let estimate = k::estimate().image(2);
    let line = |estimate: &[u8]| calls::check(&model, estimate).to_string();
    assert_eq!(line(&estimate[..4 * BLOCK]), "refused estimate 1 0 0");
    assert_eq!(line(&[estimate.as_slice(), &[0; BLOCK]].concat()), "refused estimate 1 0 0");
    let change = |block: usize, at: usize, byte: u8| {
        let mut image = estimate.clone();
        let (blocks, _) = image.as_chunks_mut::<BLOCK>();
        blocks[block][at] = byte;
        seal(&mut blocks[block]);
        line(&image)
    };
    assert_eq!(change(3, 3, 0), "refused estimate 3 3 0");
    assert_eq!(change(3, 4, 1), "refused estimate 4 3 0");
    assert_eq!(change(3, 8, 0x40), "refused estimate 5 3 0");
    assert_eq!(change(0, 8 + 8 * 6, 1), "refused estimate 5 0 0");
    assert_eq!(change(0, 8 + 8 * 60, 1), "refused estimate 5 0 0");
    assert_eq!(change(2, 8 + 8 * 61, 1), "refused estimate 5 2 0");
    assert_eq!(change(1, 8 + 8 * 61, 1), "accepted");
    assert_eq!(change(1, 8 + 8 * 61, 0x40), "refused estimate 5 1 0");
    assert_eq!(calls::check(&model[1..], &[]).to_string(), "refused model 1 0 0");
}

#[test]
fn model_before_room_before_spoilt_before_moves() {
    let bad_reach = changed(&[(2, field(3, 2), 2)]);
    let good = changed(&[]);
    let unknown = Move::new([0; 5]);
    let mut short = vec![0; STATE_WORDS - 1];
    let mut spoilt = vec![1; STATE_WORDS];
    let step = |image: &[u8], words: &mut [u32]| {
        let before = words.to_vec();
        let refusal = calls::step(image, words, unknown).expect_err("a refusal");
        assert_eq!(before, words);
        (refusal.cause.number(), refusal.first, refusal.second)
    };
    assert_eq!(step(&bad_reach, &mut short), (9, 0, 3));
    assert_eq!(step(&good, &mut short), (10, 0, 0));
    assert_eq!(step(&good, &mut spoilt), (11, 0, 0));
    let mut words = walk::start(&Model::read(&good).unwrap());
    assert_eq!(step(&good, &mut words), (12, 0, 0));

    let mut answers = [77; 2];
    let run = calls::run(&good, &mut spoilt, &[unknown], &mut answers);
    assert_eq!(run, Err(Cause::Room.plain()));
    let run = calls::run(&good, &mut spoilt, &[unknown; 2], &mut answers);
    assert_eq!(run, Err(Cause::Spoilt.plain()));
    assert_eq!(calls::run(&good, &mut short, &[], &mut []), Err(Cause::Room.plain()));
    assert_eq!(calls::run(&bad_reach, &mut short, &[], &mut []), Err(Cause::Reach.at(0, 3)));
    assert_eq!(answers, [77; 2]);
    assert_eq!(calls::start(&good, &mut short), Err(Cause::Room.plain()));
    assert_eq!(calls::start(&bad_reach, &mut short), Err(Cause::Reach.at(0, 3)));
    assert!(short.iter().all(|word| *word == 0));
}

#[test]
fn each_refused_move() {
    for refused in REFUSED_MOVES.iter().chain(&PRIVATE_AND_MORE) {
        let image = crafted::image(refused.text);
        let mut words = walk::start(&Model::read(&image).unwrap());
        words[0] = refused.stamp;
        let (last, before) = refused.moves.split_last().unwrap();
        for mv in before {
            assert_eq!(calls::step(&image, &mut words, Move::new(*mv)), Ok(()));
        }
        let answer = calls::step(&image, &mut words, Move::new(*last));
        assert_eq!(answer.unwrap_err().cause.number(), refused.number);
    }
}

/// The answer to the last of some moves from the start of a text's model,
/// after a change of the start's words.
fn last_answer(text: &str, change: impl Fn(&mut [u32]), moves: &[[u32; 5]]) -> u8 {
    let model = crafted::model(text);
    let mut words = walk::start(&model);
    change(&mut words);
    let moves: Vec<Move> = moves.iter().copied().map(Move::new).collect();
    let mut answers = vec![99; moves.len()];
    bm::step::run(&model, &mut words, &moves, &mut answers).expect("a run");
    *answers.last().unwrap()
}

const K: &str = "free x z received y free u v c
    box site x {c} x(y).0 | x<z>.0 box site u {c} u<v>.0";

fn unchanged(_: &mut [u32]) {}

/// The order is 12 to 20 ascending, but 18 before 16 and 17. Of numbers next
/// to each other in it, 15 and 18, and 17 and 19, belong to different kinds of
/// move, so no move has both. The others are in the next three tests.
#[test]
fn nobody_before_self_before_wrong_line() {
    // 12 and 13: no such thread or box, twice.
    assert_eq!(last_answer(K, unchanged, &[[8, 0, 7, 0, 7]]), 12);
    assert_eq!(last_answer(K, unchanged, &[[9, 5, 0, 5, 0]]), 12);
    assert_eq!(last_answer(K, unchanged, &[[9, 0, 0, 0, 9]]), 12);
    // 13 and 14: one thread twice, at a line of the wrong sort.
    assert_eq!(last_answer(K, unchanged, &[[8, 0, 0, 0, 0]]), 13);
    assert_eq!(last_answer(K, unchanged, &[[9, 0, 0, 0, 0]]), 13);
    // 14 and 15: two outputs on different channels.
    let outputs = "free x z c box site x {c} x<z>.0 | z<x>.0";
    assert_eq!(last_answer(outputs, unchanged, &[[2, 0, 0, 0, 0], [8, 0, 0, 0, 1]]), 14);
    // 14 and 16: an output on no site as the input end.
    let no_site = "free x z u c box site x {c} z<x>.0 box site u {c} u<x>.0";
    assert_eq!(last_answer(no_site, unchanged, &[[9, 0, 0, 1, 0]]), 14);
    // 14 and 18: an output as the input end, and a restricted name sent.
    let private = "free x u c restricted n box site x {c} x<u>.0 box site u {c} new n.u<n>.0";
    let moves = [[3, 1, 0, 0, 0], [9, 0, 0, 1, 0]];
    assert_eq!(last_answer(private, unchanged, &moves), 14);
}

#[test]
fn private_before_no_site_before_unfit() {
    let ends = |one: &str, other: &str, ty: &str, sent: &str| {
        let text = format!(
            "free x u v c d received y restricted n
            box {one} x {{c}} x(y).0 box {other} u {{{ty}}} new n.u<{sent}>.0"
        );
        last_answer(&text, unchanged, &[[3, 1, 0, 0, 0], [9, 0, 0, 1, 0]])
    };
    // 16 and 18: hidden on either side, or on both.
    assert_eq!(ends("hidden", "site", "c", "n"), 18);
    assert_eq!(ends("site", "hidden", "c", "n"), 18);
    assert_eq!(ends("hidden", "hidden", "d", "n"), 18);
    // 17 and 18.
    assert_eq!(ends("site", "site", "d", "n"), 18);
    // 16 and 17.
    assert_eq!(ends("hidden", "site", "d", "v"), 16);
    assert_eq!(ends("site", "hidden", "d", "v"), 16);
    // Each alone, and none.
    assert_eq!(ends("site", "site", "c", "n"), 18);
    assert_eq!(ends("hidden", "site", "c", "v"), 16);
    assert_eq!(ends("site", "hidden", "c", "v"), 16);
    assert_eq!(ends("site", "site", "d", "v"), 17);
    assert_eq!(ends("site", "site", "c", "v"), 0);
}

/// What the last of a crafted case's moves meets of 16, 17 and 18.
fn last_causes(refused: &RefusedMove) -> Vec<u8> {
    let model = crafted::model(refused.text);
    let mut words = walk::start(&model);
    let mut session = Session::open(&model, &mut words).expect("a state");
    let moves = refused.moves();
    let (last, before) = moves.split_last().unwrap();
    before.iter().for_each(|mv| session.step(*mv).expect("a move that is made"));
    let causes = session.inter_causes(*last).expect("a move that meets none of 12 to 14");
    causes.into_iter().map(Cause::number).collect()
}

#[test]
fn causes_of_an_inter_move() {
    let causes: Vec<Vec<u8>> = PRIVATE_AND_MORE.iter().map(last_causes).collect();
    assert_eq!(causes, [[18, 16], [18, 16], [18, 17]]);
    let alone = |refused: &&RefusedMove| (16..=18).contains(&refused.number);
    let causes: Vec<Vec<u8>> = REFUSED_MOVES.iter().filter(alone).map(last_causes).collect();
    assert_eq!(causes, [[16], [17], [18]]);
}

/// A box with this many starting sites, which exposes one more.
fn exposing(sites: usize) -> String {
    let names: String = (0..sites).map(|at| format!("s{at} ")).collect();
    let sites: String = (0..sites).map(|at| format!("site s{at} {{c}} ")).collect();
    format!("free c {names} exposed e box {sites} expose e {{c}}.0")
}

#[test]
fn full_before_spent() {
    let spent = |words: &mut [u32]| words[0] = 67_108_863;
    let expose = [[5, 0, 0, 0, 0]];
    assert_eq!(last_answer(&exposing(16), spent, &expose), 19);
    assert_eq!(last_answer(&exposing(16), unchanged, &expose), 19);
    assert_eq!(last_answer(&exposing(15), spent, &expose), 20);
    assert_eq!(last_answer(&exposing(15), unchanged, &expose), 0);
}

/// Hide needs a shown site of the box, unhide a hidden one.
#[test]
fn switches_need_their_site() {
    let hide = [6, 0, 0, 0, 0];
    let unhide = [7, 0, 0, 0, 0];
    let boxed = |site: &str, process: &str| {
        format!("free x z c u box {site} x {{c}} {process} box site u {{c}} 0")
    };
    for (site, process, moves, answer) in [
        ("site", "hide x.0", &[hide][..], 0),
        ("site", "hide x.hide x.0", &[hide, hide], 16),
        ("site", "hide x.unhide x.0", &[hide, unhide], 0),
        ("site", "unhide x.0", &[unhide], 16),
        ("hidden", "hide x.0", &[hide], 16),
        ("hidden", "unhide x.0", &[unhide], 0),
        ("site", "hide z.0", &[hide], 16),
        ("site", "hide u.0", &[hide], 16),
        ("site", "unhide z.0", &[unhide], 16),
        ("site", "hide x.0", &[unhide], 14),
    ] {
        assert_eq!(last_answer(&boxed(site, process), unchanged, moves), answer, "{process}");
    }
}

/// What is private is the held name, not the name that the line sends: a
/// received name may hold a restricted one, and a name of kind 3 goes out.
#[test]
fn private_is_the_held_name() {
    let text = "free x u c received y w restricted n
        box site x {c} x(w).0
        box site u {c} new n.(u<n>.0 | u(y).u<y>.0)";
    let moves = [[3, 1, 0, 0, 0], [2, 1, 0, 0, 0], [8, 1, 1, 0, 0], [9, 0, 0, 1, 1]];
    assert_eq!(last_answer(text, unchanged, &moves), 18);
    let text = "free x u c received w exposed e
        box site x {c} x(w).0
        box site u {c} expose e {c}.u<e>.0";
    assert_eq!(last_answer(text, unchanged, &[[5, 1, 0, 0, 0], [9, 0, 0, 1, 0]]), 0);
}

/// Channels are held names: two stamps of one name differ.
#[test]
fn channels_are_held_names() {
    let text = "free x c received y restricted n
        box site x {c} !new n.(n(y).0 | n<x>.0)";
    let mut moves = vec![[4, 0, 0, 0, 0], [4, 0, 0, 0, 0], [3, 0, 1, 0, 0], [3, 0, 2, 0, 0]];
    moves.extend([[2, 0, 1, 0, 0], [2, 0, 2, 0, 0], [8, 0, 1, 0, 4]]);
    assert_eq!(last_answer(text, unchanged, &moves), 15);
    *moves.last_mut().unwrap() = [8, 0, 1, 0, 3];
    assert_eq!(last_answer(text, unchanged, &moves), 0);
}

/// A draft of one box whose lines are a chain of outputs and a nil.
fn chain(lines: usize) -> Draft {
    let mut draft = k::model();
    draft.boxes.truncate(1);
    let output = |at: usize| Line::Output { on: k::X, of: k::Z, next: LineNo(at as u16 + 1) };
    draft.boxes[0].lines = (0..lines - 1).map(output).collect();
    draft.boxes[0].lines.push(Line::Nil);
    draft
}

#[test]
fn line_blocks() {
    for (lines, blocks) in
        [(1, 1), (30, 1), (31, 2), (32, 2), (61, 2), (62, 3), (92, 3), (93, 4), (123, 4), (124, 4)]
    {
        let image = chain(lines).image();
        assert_eq!(image.len(), (2 + blocks) * BLOCK);
        let model = Model::read(&image).unwrap();
        assert_eq!(model.boxes()[0].lines().len(), lines);
        let cut = &image[..(1 + blocks) * BLOCK];
        assert_eq!(refusal(cut), (1, 1 + blocks as u32, 0));
        let mut more = image.clone();
        more.extend_from_slice(&image[(1 + blocks) * BLOCK..]);
        let (blocks_of, _) = more.as_chunks_mut::<BLOCK>();
        blocks_of[2 + blocks][0] = 2 + blocks as u8;
        seal(&mut blocks_of[2 + blocks]);
        assert_eq!(refusal(&more), (3, 2 + blocks as u32, 0));
    }
}

#[test]
fn limits_of_names_and_boxes() {
    for (names, answer) in [(60, None), (61, Some((4, 0, 0)))] {
        let draft = Draft { kinds: vec![NameKind::Free; names], boxes: Vec::new() };
        let image = draft.image();
        assert_eq!(Model::read(&image).err().map(|_| refusal(&image)), answer);
    }
    let mut full = Draft { kinds: vec![NameKind::Free; 60], boxes: Vec::new() };
    for subject in 0..8 {
        let mut def = chain(124).boxes.remove(0);
        def.sites[0].subject = NameNo(subject);
        def.sites[0].ty = NameSet::one(NameNo(59));
        full.boxes.push(def);
    }
    let image = full.image();
    assert_eq!(image.len(), 20_992);
    assert_eq!(Model::read(&image).unwrap().boxes().len(), 8);
}

#[test]
fn sixteen_threads() {
    let copies = "free x c box site x {c} !0";
    assert_eq!(last_answer(copies, |_| {}, &[[4, 0, 0, 0, 0]; 15]), 0);
    assert_eq!(last_answer(copies, |_| {}, &[[4, 0, 0, 0, 0]; 16]), 19);
    let spreads = "free x c box site x {c} !(0 | 0)";
    let mut moves = vec![[4, 0, 0, 0, 0]; 15];
    moves.push([2, 0, 1, 0, 0]);
    assert_eq!(last_answer(spreads, |_| {}, &moves), 19);
    moves.remove(0);
    assert_eq!(last_answer(spreads, |_| {}, &moves), 0);
}

/// Name 59 made with the stamp after this one: its word, or the refusal.
fn made_after(stamp: u32, by_new: bool) -> Result<u32, Cause> {
    let model = crafted::last_name(by_new);
    let mut words = walk::start(&model);
    words[0] = stamp;
    bm::step::step(&model, &mut words, Move::new([4, 0, 0, 0, 0]))?;
    let kind = if by_new { 3 } else { 5 };
    bm::step::step(&model, &mut words, Move::new([kind, 0, 1, 0, 0]))?;
    assert_eq!(words[0], stamp + 1);
    let record = Record(&records(&words).unwrap()[0]);
    let thread = record.threads().nth(1).unwrap();
    let held = Held(thread.binding(NameNo(59)));
    assert_eq!((held.name(), held.stamp()), (NameNo(59), stamp + 1));
    let subjects: Vec<Held> = record.sites().map(|site| site.subject()).collect();
    assert_eq!(subjects.contains(&held), !by_new);
    Ok(held.0)
}

/// Past 16 bits, and up to the last stamp of 26, with which name 59 still fits
/// its word.
#[test]
fn last_stamps() {
    for by_new in [true, false] {
        assert_eq!(made_after(0, by_new), Ok(124));
        assert_eq!(made_after(65_534, by_new), Ok(4_194_300));
        assert_eq!(made_after(65_535, by_new), Ok(4_194_364));
        assert_eq!(made_after(65_536, by_new), Ok(4_194_428));
        assert_eq!(made_after(67_108_861, by_new), Ok(4_294_967_228));
        assert_eq!(made_after(67_108_862, by_new), Ok(4_294_967_292));
        assert_eq!(made_after(67_108_863, by_new), Err(Cause::Spent));
        assert_eq!(made_after(67_108_864, by_new), Err(Cause::Spoilt));
        assert_eq!(made_after(u32::MAX, by_new), Err(Cause::Spoilt));
    }
}

/// The false shortcut of places: the second site is hidden by its name.
#[test]
fn sites_are_found_by_held_name() {
    let model = crafted::model("free x z c box site x {c} site z {c} hide z.unhide z.hide z.0");
    let mut words = walk::start(&model);
    let hidden = |words: &[u32]| {
        let record = Record(&records(words).unwrap()[0]);
        record.sites().map(|site| site.hidden()).collect::<Vec<bool>>()
    };
    bm::step::step(&model, &mut words, Move::new([6, 0, 0, 0, 0])).unwrap();
    assert_eq!(hidden(&words), [false, true]);
    bm::step::step(&model, &mut words, Move::new([7, 0, 0, 0, 0])).unwrap();
    assert_eq!(hidden(&words), [false, false]);
    let unhide = bm::step::step(&model, &mut words, Move::new([7, 0, 0, 0, 0]));
    assert_eq!(unhide, Err(Cause::WrongLine));
}

/// The false shortcut of numbers: two stamps of one exposed name differ as
/// types, and as channels.
#[test]
fn two_stamps_do_not_meet() {
    // Box 0 makes e twice and sends the first to box 1; each end then has a
    // site whose type is one of the two.
    let text = "free x u c v received r w exposed e f g
        box site x {c} !expose e {c}.(x<e>.0 | expose f {e}.f<v>.0)
        box site u {c} u(r).expose g {r}.g(w).0";
    let model = crafted::model(text);
    let mut words = walk::start(&model);
    let mut step = |numbers| bm::step::step(&model, &mut words, Move::new(numbers));
    for numbers in [
        [4, 0, 0, 0, 0],
        [4, 0, 0, 0, 0],
        [5, 0, 1, 0, 0],
        [5, 0, 2, 0, 0],
        [2, 0, 1, 0, 0],
        [2, 0, 2, 0, 0],
        [5, 0, 3, 0, 0],
        [5, 0, 4, 0, 0],
        [9, 1, 0, 0, 1],
        [5, 1, 0, 0, 0],
    ] {
        assert_eq!(step(numbers), Ok(()), "{numbers:?}");
    }
    assert_eq!(step([9, 1, 0, 0, 4]), Err(Cause::Unfit));
    assert_eq!(step([9, 1, 0, 0, 3]), Ok(()));
}

/// The false shortcut of one counter: each box counts its own stamps.
#[test]
fn stamps_are_counted_per_box() {
    let text = "free x u c restricted m n
        box site x {c} new m.0 box site u {c} new n.0";
    let model = crafted::model(text);
    let mut words = walk::start(&model);
    for box_no in [1, 0] {
        bm::step::step(&model, &mut words, Move::new([3, box_no, 0, 0, 0])).unwrap();
    }
    assert_eq!((words[0], words[RECORD_WORDS]), (1, 1));
}

/// The false shortcut of one box: clause 6 asks of other boxes only.
#[test]
fn clause_six_asks_of_other_boxes() {
    let text = "free x z c received y box site x {c} site z {c} x(y).0 | z<c>.0";
    let model = crafted::model(text);
    let least = bm::least::least(&model);
    assert!(least.rho(NameNo(3)).is_empty());
    assert_eq!(bm::clauses::check(&model, &least), Ok(()));
}

/// The expose type is stored ascending, without repeats.
#[test]
fn types_without_repeats() {
    let text = "free a b x c received y exposed e
        box site x {c} x(y).expose e {y, b, a}.0 | x<b>.0";
    let model = crafted::model(text);
    let mut words = walk::start(&model);
    for numbers in [[2, 0, 0, 0, 0], [8, 0, 0, 0, 1], [5, 0, 0, 0, 0]] {
        bm::step::step(&model, &mut words, Move::new(numbers)).unwrap();
    }
    let site = Record(&records(&words).unwrap()[0]).sites().nth(1).unwrap();
    assert_eq!(site.type_words(), [1, 2]);
    assert_eq!((site.subject(), site.hidden()), (bm::Held::new(NameNo(5), 1), false));
}
