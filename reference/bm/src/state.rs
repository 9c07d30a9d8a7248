//! A state's words: their layout, the state rules, and the start.

use crate::model::{LineNo, MAX_BOXES, MAX_SITES, Model};
use crate::names::{Held, MAX_NAMES, MAX_STAMP, NameKind, NameNo, NameSet};
use crate::refusal::Cause;
use crate::shape::MAX_TYPE;

/// The most threads of a box.
pub const MAX_THREADS: usize = 16;
/// The words of a site: subject, shown or hidden, eight of type.
pub const SITE_WORDS: usize = 2 + MAX_TYPE;
/// The words of a thread: its line and a binding for each name.
pub const THREAD_WORDS: usize = 1 + MAX_NAMES;
/// The words of a box's record.
pub const RECORD_WORDS: usize = THREADS_AT + MAX_THREADS * THREAD_WORDS;
/// The words of a state.
pub const STATE_WORDS: usize = MAX_BOXES * RECORD_WORDS;

const STAMP: usize = 0;
const THREAD_COUNT: usize = 1;
const SITE_COUNT: usize = 2;
const SITES_AT: usize = 3;
const THREADS_AT: usize = SITES_AT + MAX_SITES * SITE_WORDS;

/// A box's record as its words.
pub type RecordWords = [u32; RECORD_WORDS];
/// All box records of a state.
pub type Records = [RecordWords; MAX_BOXES];

/// The box records of lent words; `None` if there are not 9,112.
pub fn records(words: &[u32]) -> Option<&Records> {
    let (records, rest) = words.as_chunks::<RECORD_WORDS>();
    if rest.is_empty() { records.try_into().ok() } else { None }
}

/// The box records of lent words, to be written.
pub fn records_mut(words: &mut [u32]) -> Option<&mut Records> {
    let (records, rest) = words.as_chunks_mut::<RECORD_WORDS>();
    if rest.is_empty() { records.try_into().ok() } else { None }
}

/// A box's record, read.
#[derive(Clone, Copy, Debug)]
pub struct Record<'a>(pub &'a RecordWords);

impl<'a> Record<'a> {
    pub fn stamp(self) -> u32 {
        self.0[STAMP]
    }

    pub fn thread_count(self) -> usize {
        self.0[THREAD_COUNT] as usize
    }

    pub fn site_count(self) -> usize {
        self.0[SITE_COUNT] as usize
    }

    fn site_places(self) -> &'a [[u32; SITE_WORDS]] {
        self.0[SITES_AT..THREADS_AT].as_chunks().0
    }

    fn thread_places(self) -> &'a [[u32; THREAD_WORDS]] {
        self.0[THREADS_AT..].as_chunks().0
    }

    /// The sites in use.
    pub fn sites(self) -> impl Iterator<Item = SiteWords<'a>> {
        self.site_places()[..self.site_count()].iter().map(SiteWords)
    }

    /// The threads in use.
    pub fn threads(self) -> impl Iterator<Item = Thread<'a>> {
        self.thread_places()[..self.thread_count()].iter().map(Thread)
    }

    /// A thread in use.
    pub fn thread(self, at: usize) -> Thread<'a> {
        Thread(&self.thread_places()[at])
    }

    /// The place of the site with this subject that is hidden or shown.
    pub fn find_site(self, subject: Held, hidden: bool) -> Option<usize> {
        self.sites().position(|site| site.subject() == subject && site.hidden() == hidden)
    }

    /// The type of the shown site with this subject.
    pub fn shown_type(self, subject: Held) -> Option<&'a [u32]> {
        let at = self.find_site(subject, false)?;
        Some(SiteWords(&self.site_places()[at]).type_words())
    }
}

/// A site's words.
#[derive(Clone, Copy, Debug)]
pub struct SiteWords<'a>(pub &'a [u32; SITE_WORDS]);

impl<'a> SiteWords<'a> {
    pub fn subject(self) -> Held {
        Held(self.0[0])
    }

    pub fn hidden(self) -> bool {
        self.0[1] == 1
    }

    /// The held names of the type, as words.
    pub fn type_words(self) -> &'a [u32] {
        let places = &self.0[2..];
        let len = places.iter().position(|word| *word == 0).unwrap_or(MAX_TYPE);
        &places[..len]
    }
}

/// A thread's words.
#[derive(Clone, Copy, Debug)]
pub struct Thread<'a>(pub &'a [u32; THREAD_WORDS]);

impl Thread<'_> {
    pub fn line(self) -> LineNo {
        LineNo(self.0[0] as u16)
    }

    /// The binding's word of a listed name; 0 is none.
    pub fn binding(self, name: NameNo) -> u32 {
        self.0[1 + name.index()]
    }
}

/// A box's record, to be written.
#[derive(Debug)]
pub struct RecordMut<'a>(pub &'a mut RecordWords);

impl RecordMut<'_> {
    pub fn read(&self) -> Record<'_> {
        Record(self.0)
    }

    /// Counts the stamp up by one and hands it back.
    pub fn next_stamp(&mut self) -> u32 {
        self.0[STAMP] += 1;
        self.0[STAMP]
    }

    fn thread_range(at: usize) -> std::ops::Range<usize> {
        let start = THREADS_AT + at * THREAD_WORDS;
        start..start + THREAD_WORDS
    }

    pub fn set_line(&mut self, thread: usize, line: LineNo) {
        self.0[Self::thread_range(thread).start] = u32::from(line.0);
    }

    pub fn bind(&mut self, thread: usize, name: NameNo, held: Held) {
        self.0[Self::thread_range(thread).start + 1 + name.index()] = held.0;
    }

    /// Appends a thread at a line with the bindings of another.
    pub fn append_thread(&mut self, like: usize, line: LineNo) {
        let at = self.read().thread_count();
        self.0.copy_within(Self::thread_range(like), Self::thread_range(at).start);
        self.set_line(at, line);
        self.0[THREAD_COUNT] += 1;
    }

    /// Removes a thread; later ones move down, the freed record is zeroed.
    pub fn remove_thread(&mut self, thread: usize) {
        let last = self.read().thread_count() - 1;
        let moved = Self::thread_range(thread).end..Self::thread_range(last).end;
        self.0.copy_within(moved, Self::thread_range(thread).start);
        self.0[Self::thread_range(last)].fill(0);
        self.0[THREAD_COUNT] -= 1;
    }

    /// Appends a site.
    pub fn append_site(&mut self, subject: Held, hidden: bool, ty: &[u32; MAX_TYPE]) {
        let start = SITES_AT + self.read().site_count() * SITE_WORDS;
        self.0[start] = subject.0;
        self.0[start + 1] = u32::from(hidden);
        self.0[start + 2..start + SITE_WORDS].copy_from_slice(ty);
        self.0[SITE_COUNT] += 1;
    }

    pub fn set_hidden(&mut self, site: usize, hidden: bool) {
        self.0[SITES_AT + site * SITE_WORDS + 1] = u32::from(hidden);
    }
}

/// Writes the start of a model into lent words: refusal 10.
pub fn start(model: &Model, words: &mut [u32]) -> Result<(), Cause> {
    let records = records_mut(words).ok_or(Cause::Room)?;
    records.as_flattened_mut().fill(0);
    for (def, record) in model.boxes().iter().zip(records) {
        let mut record = RecordMut(record);
        for site in def.sites() {
            let mut ty = [0; MAX_TYPE];
            for (word, name) in ty.iter_mut().zip(site.ty) {
                *word = Held::free(name).0;
            }
            record.append_site(Held::free(site.subject), site.hidden, &ty);
        }
        record.0[THREAD_COUNT] = 1;
    }
    Ok(())
}

/// Whether the records keep the state rules for the model.
pub fn keeps_rules(model: &Model, records: &Records) -> bool {
    let (used, lacking) = records.split_at(model.boxes().len());
    let rules = Rules { model, records };
    lacking.iter().all(|record| zero(record))
        && used.iter().enumerate().all(|(box_no, words)| rules.record(box_no, Record(words)))
}

/// Whether all words are zero; without a way out early, many at a time.
fn zero(words: &[u32]) -> bool {
    words.iter().fold(0, |bits, word| bits | word) == 0
}

struct Rules<'a> {
    model: &'a Model,
    records: &'a Records,
}

impl Rules<'_> {
    fn record(&self, box_no: usize, record: Record<'_>) -> bool {
        if record.stamp() > MAX_STAMP
            || record.thread_count() > MAX_THREADS
            || record.site_count() > MAX_SITES
        {
            return false;
        }
        let free_sites = &record.site_places()[record.site_count()..];
        let free_threads = &record.thread_places()[record.thread_count()..];
        zero(free_sites.as_flattened())
            && zero(free_threads.as_flattened())
            && record.sites().all(|site| self.site(site))
            && subjects_differ(record)
            && record.threads().all(|thread| self.thread(box_no, thread))
    }

    fn site(&self, site: SiteWords<'_>) -> bool {
        let ty = site.type_words();
        let is_subject = |kind| matches!(kind, NameKind::Free | NameKind::Exposed);
        self.held(site.0[0])
            && is_subject(self.model.kind(site.subject().name()))
            && site.0[1] <= 1
            && !ty.is_empty()
            && zero(&site.0[2 + ty.len()..])
            && ty.is_sorted_by(|low, high| low < high)
            && ty.iter().all(|word| self.held(*word))
    }

    fn thread(&self, box_no: usize, thread: Thread<'_>) -> bool {
        let def = &self.model.boxes()[box_no];
        if thread.0[0] as usize >= def.lines().len() {
            return false;
        }
        let above = def.above(thread.line());
        let bound = thread.0[1..].iter().enumerate().filter(|(_, word)| **word != 0);
        let bound: NameSet = bound.map(|(at, _)| NameNo(at as u8)).collect();
        bound == above && above.into_iter().all(|name| self.held(thread.binding(name)))
    }

    /// Whether a word is a held name: listed, not received, with stamp 0 if
    /// free, else from 1 to the last stamp of the box that binds it.
    fn held(&self, word: u32) -> bool {
        let held = Held(word);
        if word == 0 || !self.model.listed().has(held.name()) {
            return false;
        }
        match self.model.kind(held.name()) {
            NameKind::Free => held.stamp() == 0,
            NameKind::Received => false,
            NameKind::Restricted | NameKind::Exposed => {
                let binder = self.model.binder(held.name());
                let last = binder.map_or(0, |binder| Record(&self.records[binder]).stamp());
                (1..=last).contains(&held.stamp())
            }
        }
    }
}

fn subjects_differ(record: Record<'_>) -> bool {
    record.sites().enumerate().all(|(at, site)| {
        record.sites().take(at).all(|earlier| earlier.subject() != site.subject())
    })
}
