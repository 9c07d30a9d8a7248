//! The words of a state, read where they stand.
//!
//! A state is 8 box records of 1,139 words: the last stamp, how many threads
//! and sites the box has, 16 sites of 10 words and 16 threads of 61 words.

/// The words of a state.
pub const STATE_WORDS: usize = 8 * RECORD_WORDS;

/// The words of a box's record.
pub const RECORD_WORDS: usize = THREADS_AT + SLOTS * THREAD_WORDS;

const SLOTS: usize = 16;
const SITE_WORDS: usize = 10;
const THREAD_WORDS: usize = 61;
const SITES_AT: usize = 3;
const THREADS_AT: usize = SITES_AT + SLOTS * SITE_WORDS;

/// As many zeros as a state has words, for [`start`](crate::start) to write.
pub fn new_state() -> Box<[u32]> {
    vec![0; STATE_WORDS].into_boxed_slice()
}

/// A name's number.
#[derive(Clone, Copy, PartialEq, Eq, PartialOrd, Ord, Hash, Debug)]
pub struct NameNo(pub u8);

/// A held name: what a thread or a site carries, a name's number with a stamp.
/// In a word of a state it is 1, plus the number, plus 64 times the stamp.
///
/// ```
/// use brothmaple::state::{Held, NameNo};
///
/// let held = Held::in_word(1 + 59 + 64 * 3).unwrap();
/// assert_eq!((held.name(), held.stamp()), (NameNo(59), 3));
/// assert_eq!(Held::in_word(0), None);
/// ```
#[derive(Clone, Copy, PartialEq, Eq, PartialOrd, Ord, Hash, Debug)]
pub struct Held(u32);

impl Held {
    /// The held name in a word of a state; a word of 0 holds none.
    pub const fn in_word(word: u32) -> Option<Held> {
        if word == 0 { None } else { Some(Held(word)) }
    }

    /// The number of the name that it was made from.
    pub const fn name(self) -> NameNo {
        NameNo(((self.0 - 1) % 64) as u8)
    }

    /// Its stamp: 0 for a free name, from 1 on for a made one.
    pub const fn stamp(self) -> u32 {
        (self.0 - 1) / 64
    }
}

/// The record of a box in the words of a state.
#[derive(Clone, Copy, Debug)]
pub struct Record<'s>(&'s [u32]);

/// The record of a box; `None` where the words have no such record.
///
/// ```
/// use brothmaple::example::MODEL;
/// use brothmaple::state::{new_state, record, NameNo};
///
/// let mut state = new_state();
/// brothmaple::start(MODEL, &mut state).unwrap();
/// let box_0 = record(&state, 0).unwrap();
/// assert_eq!(box_0.threads().map(|thread| thread.line()).collect::<Vec<_>>(), [0]);
/// let site = box_0.sites().next().unwrap();
/// assert!(site.is_shown());
/// assert_eq!(site.subject().unwrap().name(), NameNo(0)); // x
/// assert!(record(&state, 8).is_none());
/// ```
pub fn record(state: &[u32], box_no: usize) -> Option<Record<'_>> {
    state.chunks_exact(RECORD_WORDS).nth(box_no).map(Record)
}

impl<'s> Record<'s> {
    /// The last stamp that the box has given.
    pub fn last_stamp(self) -> u32 {
        self.0[0]
    }

    /// The box's threads.
    pub fn threads(self) -> impl Iterator<Item = Thread<'s>> {
        let threads = self.0[THREADS_AT..].chunks_exact(THREAD_WORDS);
        threads.take(self.0[1] as usize).map(Thread)
    }

    /// The box's sites.
    pub fn sites(self) -> impl Iterator<Item = Site<'s>> {
        let sites = self.0[SITES_AT..THREADS_AT].chunks_exact(SITE_WORDS);
        sites.take(self.0[2] as usize).map(Site)
    }
}

/// A thread of a box.
#[derive(Clone, Copy, Debug)]
pub struct Thread<'s>(&'s [u32]);

impl Thread<'_> {
    /// The line at which it stands.
    pub fn line(self) -> u32 {
        self.0[0]
    }

    /// What a name is bound to; `None` where it has no binding here.
    pub fn binding(self, name: NameNo) -> Option<Held> {
        self.0.get(1 + usize::from(name.0)).and_then(|&word| Held::in_word(word))
    }
}

/// A site of a box.
#[derive(Clone, Copy, Debug)]
pub struct Site<'s>(&'s [u32]);

impl<'s> Site<'s> {
    /// The held name that the site is found by; a site of a state in order
    /// has one.
    pub fn subject(self) -> Option<Held> {
        Held::in_word(self.0[0])
    }

    /// Whether it is shown, and not hidden.
    pub fn is_shown(self) -> bool {
        self.0[1] == 0
    }

    /// The held names of its type, ascending.
    pub fn type_names(self) -> impl Iterator<Item = Held> + use<'s> {
        self.0[2..].iter().filter_map(|&word| Held::in_word(word))
    }
}
