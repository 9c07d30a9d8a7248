//! Moves: what each does, when it is refused, and runs of them.

use crate::model::{Line, LineNo, MAX_SITES, Model};
use crate::names::{Held, MAX_STAMP, NameKind, NameNo, NameSet};
use crate::refusal::Cause;
use crate::shape::MAX_TYPE;
use crate::state::{self, MAX_THREADS, Record, RecordMut, Records, Thread};

/// The numbers of the move kinds.
pub mod move_kind {
    pub const DROP: u32 = 1;
    pub const SPREAD: u32 = 2;
    pub const NEW: u32 = 3;
    pub const COPY: u32 = 4;
    pub const EXPOSE: u32 = 5;
    pub const HIDE: u32 = 6;
    pub const UNHIDE: u32 = 7;
    pub const INTRA: u32 = 8;
    pub const INTER: u32 = 9;
}

/// A move: five numbers. A kind ignores those that it does not use.
#[derive(Clone, Copy, PartialEq, Eq, Hash, Debug)]
pub struct Move {
    pub kind: u32,
    pub box_no: u32,
    pub thread: u32,
    pub second_box: u32,
    pub second_thread: u32,
}

impl Move {
    /// The move with these five numbers.
    pub const fn new(numbers: [u32; 5]) -> Move {
        let [kind, box_no, thread, second_box, second_thread] = numbers;
        Move { kind, box_no, thread, second_box, second_thread }
    }

    /// The five numbers.
    pub const fn numbers(self) -> [u32; 5] {
        [self.kind, self.box_no, self.thread, self.second_box, self.second_thread]
    }

    /// Whether the move names a box: kinds 1 to 8 name one, 9 two, unknown
    /// kinds none.
    pub fn names_box(self, box_no: usize) -> bool {
        let is = |named: u32| named as usize == box_no;
        match self.kind {
            1..=8 => is(self.box_no),
            move_kind::INTER => is(self.box_no) || is(self.second_box),
            _ => false,
        }
    }
}

/// A thread of a box.
#[derive(Clone, Copy, PartialEq, Eq, Debug)]
pub struct Place {
    pub box_no: usize,
    pub thread: usize,
}

/// What an allowed move does.
#[derive(Clone, Copy, PartialEq, Eq, Debug)]
pub enum Effect {
    Drop { place: Place },
    Spread { place: Place, first: LineNo, second: LineNo },
    New { place: Place, name: NameNo, next: LineNo },
    Copy { place: Place, next: LineNo },
    Expose { place: Place, name: NameNo, ty: [u32; MAX_TYPE], next: LineNo },
    Switch { place: Place, site: usize, hidden: bool, next: LineNo },
    Pass { input: Place, into: NameNo, sent: Held, next: LineNo, output: Place, after: LineNo },
}

/// A state that keeps the state rules of its model.
#[derive(Debug)]
pub struct Session<'a> {
    model: &'a Model,
    records: &'a mut Records,
}

impl<'a> Session<'a> {
    /// Takes lent words as a state of the model: refusals 10 and 11.
    pub fn open(model: &'a Model, words: &'a mut [u32]) -> Result<Session<'a>, Cause> {
        let records = state::records_mut(words).ok_or(Cause::Room)?;
        if !state::keeps_rules(model, records) {
            return Err(Cause::Spoilt);
        }
        Ok(Session { model, records })
    }

    /// Makes a move: refusals 12 to 20. A refused move changes nothing.
    pub fn step(&mut self, mv: Move) -> Result<(), Cause> {
        let effect = self.plan(mv)?;
        self.apply(&effect);
        Ok(())
    }

    /// What a move would do.
    pub fn plan(&self, mv: Move) -> Result<Effect, Cause> {
        match mv.kind {
            1..=7 => self.plan_alone(mv),
            move_kind::INTRA => self.plan_intra(mv),
            move_kind::INTER => self.plan_inter(mv),
            _ => Err(Cause::Nobody),
        }
    }

    fn record(&self, box_no: usize) -> Record<'_> {
        Record(&self.records[box_no])
    }

    /// The end of a move that a thread is: refusal 12.
    fn end(&self, box_no: u32, thread: u32) -> Result<End<'_>, Cause> {
        let place = Place { box_no: box_no as usize, thread: thread as usize };
        let def = self.model.boxes().get(place.box_no).ok_or(Cause::Nobody)?;
        let record = self.record(place.box_no);
        if place.thread >= record.thread_count() {
            return Err(Cause::Nobody);
        }
        let words = record.thread(place.thread);
        let line = def.lines()[words.line().index()];
        Ok(End { place, line, words, record, free: self.model.free() })
    }

    /// Kinds 1 to 7: one thread moves by itself.
    fn plan_alone(&self, mv: Move) -> Result<Effect, Cause> {
        use move_kind::*;
        let end = self.end(mv.box_no, mv.thread)?;
        let place = end.place;
        match (mv.kind, end.line) {
            (DROP, Line::Nil) => Ok(Effect::Drop { place }),
            (SPREAD, Line::Parallel { first, second }) => {
                end.room_for_thread()?;
                Ok(Effect::Spread { place, first, second })
            }
            (NEW, Line::Restrict { name, next }) => {
                end.stamp_left()?;
                Ok(Effect::New { place, name, next })
            }
            (COPY, Line::Replicate { next }) => {
                end.room_for_thread()?;
                Ok(Effect::Copy { place, next })
            }
            (EXPOSE, Line::Expose { name, ty, next }) => {
                end.room_for_site()?;
                end.stamp_left()?;
                Ok(Effect::Expose { place, name, ty: end.held_type(ty), next })
            }
            (HIDE, Line::Hide { on, next }) => end.switch(on, true, next),
            (UNHIDE, Line::Unhide { on, next }) => end.switch(on, false, next),
            _ => Err(Cause::WrongLine),
        }
    }

    /// Kind 8: two threads of one box.
    fn plan_intra(&self, mv: Move) -> Result<Effect, Cause> {
        let input = self.end(mv.box_no, mv.thread)?;
        let output = self.end(mv.box_no, mv.second_thread)?;
        if mv.thread == mv.second_thread {
            return Err(Cause::OneSelf);
        }
        let pass = Pass::between(&input, &output)?;
        if pass.input_channel != pass.output_channel {
            return Err(Cause::Channel);
        }
        Ok(pass.effect)
    }

    /// Kind 9: a thread of each of two boxes, through their sites. Refusals
    /// in the order 12, 13, 14, 18, 16, 17.
    fn plan_inter(&self, mv: Move) -> Result<Effect, Cause> {
        let input = self.end(mv.box_no, mv.thread)?;
        let output = self.end(mv.second_box, mv.second_thread)?;
        if mv.box_no == mv.second_box {
            return Err(Cause::OneSelf);
        }
        let pass = Pass::between(&input, &output)?;
        pass.may_leave(self.model)?;
        pass.sites_fit(input.record, output.record)?;
        Ok(pass.effect)
    }

    /// Whether an inter move that does not meet 12, 13 or 14 meets 18, and
    /// whether it meets 16 or 17, each looked at by itself.
    pub fn inter_causes(&self, mv: Move) -> Result<Vec<Cause>, Cause> {
        let input = self.end(mv.box_no, mv.thread)?;
        let output = self.end(mv.second_box, mv.second_thread)?;
        let pass = Pass::between(&input, &output)?;
        let tests = [pass.may_leave(self.model), pass.sites_fit(input.record, output.record)];
        Ok(tests.into_iter().filter_map(Result::err).collect())
    }

    fn record_mut(&mut self, place: Place) -> RecordMut<'_> {
        RecordMut(&mut self.records[place.box_no])
    }

    fn apply(&mut self, effect: &Effect) {
        match *effect {
            Effect::Drop { place } => self.record_mut(place).remove_thread(place.thread),
            Effect::Spread { place, first, second } => {
                let mut record = self.record_mut(place);
                record.append_thread(place.thread, second);
                record.set_line(place.thread, first);
            }
            Effect::New { place, name, next } => {
                let mut record = self.record_mut(place);
                let held = Held::new(name, record.next_stamp());
                record.bind(place.thread, name, held);
                record.set_line(place.thread, next);
            }
            Effect::Copy { place, next } => {
                self.record_mut(place).append_thread(place.thread, next);
            }
            Effect::Expose { place, name, ref ty, next } => {
                let mut record = self.record_mut(place);
                let subject = Held::new(name, record.next_stamp());
                record.append_site(subject, false, ty);
                record.bind(place.thread, name, subject);
                record.set_line(place.thread, next);
            }
            Effect::Switch { place, site, hidden, next } => {
                let mut record = self.record_mut(place);
                record.set_hidden(site, hidden);
                record.set_line(place.thread, next);
            }
            Effect::Pass { input, into, sent, next, output, after } => {
                let mut record = self.record_mut(input);
                record.bind(input.thread, into, sent);
                record.set_line(input.thread, next);
                self.record_mut(output).set_line(output.thread, after);
            }
        }
    }
}

/// A thread that a move uses.
struct End<'a> {
    place: Place,
    line: Line,
    words: Thread<'a>,
    record: Record<'a>,
    free: NameSet,
}

impl End<'_> {
    /// What a name holds in the thread: itself if free, else its binding.
    fn held(&self, name: NameNo) -> Held {
        if self.free.has(name) { Held::free(name) } else { Held(self.words.binding(name)) }
    }

    /// The held names of a type, ascending without repeats.
    fn held_type(&self, ty: NameSet) -> [u32; MAX_TYPE] {
        let mut words = [0; MAX_TYPE];
        let mut len = 0;
        for word in ty.into_iter().map(|name| self.held(name).0) {
            if let Err(at) = words[..len].binary_search(&word) {
                words.copy_within(at..len, at + 1);
                words[at] = word;
                len += 1;
            }
        }
        words
    }

    /// Hides or shows the site of a name: refusal 16.
    fn switch(&self, on: NameNo, hidden: bool, next: LineNo) -> Result<Effect, Cause> {
        let site = self.record.find_site(self.held(on), !hidden).ok_or(Cause::NoSite)?;
        Ok(Effect::Switch { place: self.place, site, hidden, next })
    }

    fn room_for_thread(&self) -> Result<(), Cause> {
        allow(self.record.thread_count() < MAX_THREADS, Cause::Full)
    }

    fn room_for_site(&self) -> Result<(), Cause> {
        allow(self.record.site_count() < MAX_SITES, Cause::Full)
    }

    fn stamp_left(&self) -> Result<(), Cause> {
        allow(self.record.stamp() < MAX_STAMP, Cause::Spent)
    }
}

fn allow(allowed: bool, cause: Cause) -> Result<(), Cause> {
    if allowed { Ok(()) } else { Err(cause) }
}

/// A name passed from an output to an input.
struct Pass {
    input_channel: Held,
    output_channel: Held,
    sent: Held,
    effect: Effect,
}

impl Pass {
    /// The two threads are at an input and at an output: refusal 14.
    fn between(input: &End<'_>, output: &End<'_>) -> Result<Pass, Cause> {
        let Line::Input { on, into, next } = input.line else {
            return Err(Cause::WrongLine);
        };
        let Line::Output { on: far_on, of, next: after } = output.line else {
            return Err(Cause::WrongLine);
        };
        let sent = output.held(of);
        Ok(Pass {
            input_channel: input.held(on),
            output_channel: output.held(far_on),
            sent,
            effect: Effect::Pass {
                input: input.place,
                into,
                sent,
                next,
                output: output.place,
                after,
            },
        })
    }

    /// A restricted name does not leave its box: refusal 18.
    fn may_leave(&self, model: &Model) -> Result<(), Cause> {
        allow(model.kind(self.sent.name()) != NameKind::Restricted, Cause::Private)
    }

    /// Both channels are shown sites, and their types share a held name:
    /// refusals 16 and 17.
    fn sites_fit(&self, input: Record<'_>, output: Record<'_>) -> Result<(), Cause> {
        let one = input.shown_type(self.input_channel).ok_or(Cause::NoSite)?;
        let other = output.shown_type(self.output_channel).ok_or(Cause::NoSite)?;
        allow(one.iter().any(|held| other.contains(held)), Cause::Unfit)
    }
}

/// Makes one move on lent words: refusals 10 to 20.
pub fn step(model: &Model, words: &mut [u32], mv: Move) -> Result<(), Cause> {
    Session::open(model, words)?.step(mv)
}

/// Makes a list of moves on lent words, passing over refused ones, and
/// writes an answer for each: refusals 10 and 11.
pub fn run(
    model: &Model,
    words: &mut [u32],
    moves: &[Move],
    answers: &mut [u8],
) -> Result<(), Cause> {
    if words.len() != state::STATE_WORDS || answers.len() != moves.len() {
        return Err(Cause::Room);
    }
    let mut session = Session::open(model, words)?;
    for (mv, answer) in moves.iter().zip(answers) {
        *answer = session.step(*mv).map_or_else(Cause::number, |()| 0);
    }
    Ok(())
}
