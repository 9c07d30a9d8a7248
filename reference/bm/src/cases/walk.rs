//! Moves: those that are allowed, and lists that mix them with others.

use super::rng::Rng;
use crate::model::{Line, Model};
use crate::refusal::Cause;
use crate::state::{self, Record, STATE_WORDS};
use crate::step::{self, Move, Session, move_kind};

/// The words of a model's start.
pub fn start(model: &Model) -> Vec<u32> {
    let mut words = vec![0; STATE_WORDS];
    state::start(model, &mut words).expect("the words are as many as they must be");
    words
}

/// Where the threads are: box, thread, line.
fn threads(model: &Model, words: &[u32]) -> Vec<(u32, u32, Line)> {
    let records = state::records(words).expect("a state");
    let mut threads = Vec::new();
    for (box_no, (def, record)) in model.boxes().iter().zip(records).enumerate() {
        for (at, thread) in Record(record).threads().enumerate() {
            threads.push((box_no as u32, at as u32, def.lines()[thread.line().index()]));
        }
    }
    threads
}

/// The kind of move that a thread makes alone at a line.
fn lone_kind(line: Line) -> Option<u32> {
    match line {
        Line::Nil => Some(move_kind::DROP),
        Line::Parallel { .. } => Some(move_kind::SPREAD),
        Line::Replicate { .. } => Some(move_kind::COPY),
        Line::Restrict { .. } => Some(move_kind::NEW),
        Line::Expose { .. } => Some(move_kind::EXPOSE),
        Line::Hide { .. } => Some(move_kind::HIDE),
        Line::Unhide { .. } => Some(move_kind::UNHIDE),
        Line::Input { .. } | Line::Output { .. } => None,
    }
}

/// The moves that the threads' lines call for, allowed or not.
pub fn candidates(model: &Model, words: &[u32]) -> Vec<Move> {
    let threads = threads(model, words);
    let mut moves = Vec::new();
    for &(box_no, thread, line) in &threads {
        moves.extend(lone_kind(line).map(|kind| Move::new([kind, box_no, thread, 0, 0])));
    }
    let is_input = |line: &Line| matches!(line, Line::Input { .. });
    let is_output = |line: &Line| matches!(line, Line::Output { .. });
    for &(box_no, thread, _) in threads.iter().filter(|(.., line)| is_input(line)) {
        for &(far, far_thread, _) in threads.iter().filter(|(.., line)| is_output(line)) {
            let kind = if far == box_no { move_kind::INTRA } else { move_kind::INTER };
            moves.push(Move::new([kind, box_no, thread, far, far_thread]));
        }
    }
    moves
}

/// What a move on a state would be answered.
pub fn answer(model: &Model, words: &[u32], mv: Move) -> Result<(), Cause> {
    let mut copy = words.to_vec();
    let session = Session::open(model, &mut copy)?;
    session.plan(mv).map(|_| ())
}

/// The moves that are allowed.
pub fn allowed(model: &Model, words: &[u32]) -> Vec<Move> {
    let mut copy = words.to_vec();
    let session = Session::open(model, &mut copy).expect("a state");
    let mut moves = candidates(model, words);
    moves.retain(|mv| session.plan(*mv).is_ok());
    moves
}

/// Numbers that a narrower number would take for small ones.
const LARGE: [u32; 5] = [255, 256, 1 << 16, 1 << 31, u32::MAX];

/// A move with numbers at random, most often refused; seldom one is large.
pub fn any_move(rng: &mut Rng, model: &Model) -> Move {
    let boxes = model.boxes().len() + 1;
    let mut numbers = [11, boxes, 5, boxes, 5].map(|limit| rng.below(limit) as u32);
    if rng.percent(10) {
        numbers[rng.below(5)] |= LARGE[rng.below(LARGE.len())];
    }
    Move::new(numbers)
}

/// How moves are chosen.
#[derive(Clone, Copy, Debug)]
pub struct Taste {
    /// How often, in a hundred, a move is taken from the allowed ones.
    pub allowed: usize,
    /// How often, in a hundred, copies and new names go before others.
    pub growth: usize,
    /// Whether copies are made of what waits at its first line already.
    pub crowd: bool,
}

impl Taste {
    pub const PLAIN: Taste = Taste { allowed: 75, growth: 5, crowd: false };
    pub const LIVELY: Taste = Taste { allowed: 92, growth: 10, crowd: false };
    pub const GROWING: Taste = Taste { allowed: 90, growth: 80, crowd: true };
}

fn grows(mv: &Move) -> bool {
    use move_kind::*;
    matches!(mv.kind, SPREAD | NEW | COPY | EXPOSE)
}

/// Whether a copy puts a thread at a line where none waits yet.
fn is_fresh_copy(model: &Model, words: &[u32], mv: &Move) -> bool {
    let threads = threads(model, words);
    let own = || threads.iter().filter(|(box_no, ..)| *box_no == mv.box_no);
    let copied = own().find(|(_, thread, _)| *thread == mv.thread);
    let child = copied.and_then(|(.., line)| line.children().next());
    let lines = model.boxes()[mv.box_no as usize].lines();
    child.is_some_and(|child| own().all(|(.., line)| *line != lines[child.index()]))
}

/// The next move: often one that ends a thread, switches a site or passes a
/// name, if one is allowed.
pub fn next_move(rng: &mut Rng, model: &Model, words: &[u32], taste: Taste) -> Move {
    let mut moves = allowed(model, words);
    let waits = |mv: &Move| mv.kind == move_kind::COPY && !is_fresh_copy(model, words, mv);
    moves.retain(|mv| taste.crowd || !waits(mv));
    let (growing, others): (Vec<Move>, Vec<Move>) = moves.iter().copied().partition(grows);
    let choice = if rng.percent(taste.growth) {
        rng.pick(&growing)
    } else if rng.percent(70) {
        rng.pick(&others)
    } else {
        rng.pick(&moves)
    };
    if rng.percent(taste.allowed)
        && let Some(mv) = choice.or_else(|| rng.pick(&moves))
    {
        return mv;
    }
    let refused = candidates(model, words);
    if rng.percent(60) { rng.pick(&refused) } else { None }.unwrap_or_else(|| any_move(rng, model))
}

/// A list of moves from a state, which goes on to the state that they leave.
pub fn walk(
    rng: &mut Rng,
    model: &Model,
    words: &mut [u32],
    count: usize,
    taste: Taste,
) -> Vec<Move> {
    let mut moves = Vec::new();
    for _ in 0..count {
        let mv = next_move(rng, model, words, taste);
        let _ = step::step(model, words, mv);
        moves.push(mv);
    }
    moves
}
