//! Ways to change the words of a state, be it to break the state rules or to keep them.

use super::rng::Rng;
use crate::model::Model;
use crate::names::{Held, NameKind, NameNo};
use crate::state::{RECORD_WORDS, Record, SITE_WORDS, THREAD_WORDS, records};

pub(super) const SITES_AT: usize = 3;
pub(super) const THREADS_AT: usize = SITES_AT + 16 * SITE_WORDS;

/// A way to change a state. It gives `false`, and changes nothing, where the
/// state has no place for it.
pub struct Change {
    pub name: &'static str,
    pub(super) make: fn(&mut Hand<'_>) -> Option<()>,
}

impl Change {
    pub fn make(&self, rng: &mut Rng, model: &Model, words: &mut [u32]) -> bool {
        (self.make)(&mut Hand { rng, model, words }).is_some()
    }
}

/// A list of ways, each a function of [`Hand`].
macro_rules! changes {
    ($list:ident: $($name:ident),* $(,)?) => {
        /// All ways.
        pub const $list: &[Change] =
            &[$(Change { name: stringify!($name), make: |hand| hand.$name() }),*];
    };
}
pub(super) use changes;

/// A state of a model, and the source of what happens to it.
pub(super) struct Hand<'a> {
    pub rng: &'a mut Rng,
    pub model: &'a Model,
    pub words: &'a mut [u32],
}

impl Hand<'_> {
    pub fn any_box(&mut self) -> Option<usize> {
        let boxes = self.model.boxes().len();
        if boxes == 0 { None } else { Some(self.rng.below(boxes)) }
    }

    pub fn record(&self, box_no: usize) -> Record<'_> {
        Record(&records(self.words).expect("a state")[box_no])
    }

    /// Writes a word of a box's record.
    pub fn put(&mut self, box_no: usize, at: usize, word: u32) -> Option<()> {
        self.words[box_no * RECORD_WORDS + at] = word;
        Some(())
    }

    /// The first word of some site.
    pub fn any_site(&mut self) -> Option<(usize, usize)> {
        let box_no = self.any_box()?;
        let sites = self.record(box_no).site_count();
        if sites == 0 {
            return None;
        }
        Some((box_no, SITES_AT + SITE_WORDS * self.rng.below(sites)))
    }

    /// The first word of some thread.
    pub fn any_thread(&mut self) -> Option<(usize, usize)> {
        let box_no = self.any_box()?;
        let threads = self.record(box_no).thread_count();
        if threads == 0 {
            return None;
        }
        Some((box_no, THREADS_AT + THREAD_WORDS * self.rng.below(threads)))
    }

    /// Some binding: box and word.
    pub fn any_binding(&mut self) -> Option<(usize, usize)> {
        let mut places = Vec::new();
        for box_no in 0..self.model.boxes().len() {
            for (at, thread) in self.record(box_no).threads().enumerate() {
                let start = THREADS_AT + THREAD_WORDS * at;
                let bound = self.model.listed().into_iter();
                let bound = bound.filter(|name| thread.binding(*name) != 0);
                places.extend(bound.map(|name| (box_no, start + 1 + name.index())));
            }
        }
        self.rng.pick(&places)
    }

    /// Puts a held name where one stands: a subject, a type or a binding.
    pub fn put_held(&mut self, held: Held) -> Option<()> {
        let (box_no, at) = match self.rng.below(3) {
            0 => self.any_site()?,
            1 => {
                let (box_no, site) = self.any_site()?;
                self.clear_type(box_no, site);
                (box_no, site + 2)
            }
            _ => self.any_binding().or_else(|| self.any_site())?,
        };
        self.put(box_no, at, held.0)
    }

    /// Leaves a type empty, to be filled.
    pub fn clear_type(&mut self, box_no: usize, site: usize) {
        let start = box_no * RECORD_WORDS + site;
        self.words[start + 2..start + SITE_WORDS].fill(0);
    }

    /// Writes a type into the words of a site.
    pub fn write_type(&mut self, box_no: usize, site: usize, ty: &[u32]) -> Option<()> {
        self.clear_type(box_no, site);
        let start = box_no * RECORD_WORDS + site + 2;
        self.words[start..start + ty.len()].copy_from_slice(ty);
        Some(())
    }

    pub fn name_of_kind(&mut self, kind: NameKind) -> Option<NameNo> {
        let names = self.model.listed().into_iter();
        let names: Vec<NameNo> = names.filter(|name| self.model.kind(*name) == kind).collect();
        self.rng.pick(&names)
    }

    /// A restricted or exposed name and the box that binds it.
    pub fn made_name(&mut self) -> Option<(NameNo, usize)> {
        let names = self.model.listed().into_iter().filter(|name| {
            matches!(self.model.kind(*name), NameKind::Restricted | NameKind::Exposed)
        });
        let names = names.filter_map(|name| Some((name, self.model.binder(name)?)));
        let names: Vec<(NameNo, usize)> = names.collect();
        self.rng.pick(&names)
    }
}
