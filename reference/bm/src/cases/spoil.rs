//! States that break one of the state rules each.

use super::change::{Change, Hand, SITES_AT, THREADS_AT, changes};
use crate::names::{Held, MAX_STAMP, NameKind, NameNo};
use crate::state::{RECORD_WORDS, SITE_WORDS, THREAD_WORDS};

changes! {
    SPOILINGS:
    lacking_box, unused_site, unused_thread, thread_count, site_count, second_word, stamp,
    line_past_end, type_empty, type_falling, type_repeated, type_gap, subject_twice,
    subject_of_wrong_kind, binding_lost, binding_extra, binding_past_names, held_past_list,
    held_received, free_with_stamp, made_without_stamp, stamp_not_yet, stamp_of_other_box,
    never_bound,
}

impl Hand<'_> {
    fn lacking_box(&mut self) -> Option<()> {
        let boxes = self.model.boxes().len();
        let box_no = if boxes == 8 { return None } else { self.rng.between(boxes, 7) };
        let at = self.rng.below(RECORD_WORDS);
        self.put(box_no, at, 1)
    }

    fn unused_site(&mut self) -> Option<()> {
        let box_no = self.any_box()?;
        let used = self.record(box_no).site_count() * SITE_WORDS;
        let at = if used == 160 { return None } else { self.rng.between(used, 159) };
        self.put(box_no, SITES_AT + at, 1)
    }

    fn unused_thread(&mut self) -> Option<()> {
        let box_no = self.any_box()?;
        let used = self.record(box_no).thread_count() * THREAD_WORDS;
        let at = if used == 976 { return None } else { self.rng.between(used, 975) };
        self.put(box_no, THREADS_AT + at, 1)
    }

    fn thread_count(&mut self) -> Option<()> {
        let box_no = self.any_box()?;
        let count = [17, 18, 1 << 16, u32::MAX][self.rng.below(4)];
        self.put(box_no, 1, count)
    }

    fn site_count(&mut self) -> Option<()> {
        let box_no = self.any_box()?;
        let count = [17, 18, 1 << 16, u32::MAX][self.rng.below(4)];
        self.put(box_no, 2, count)
    }

    fn second_word(&mut self) -> Option<()> {
        let (box_no, site) = self.any_site()?;
        let word = [2, 3, u32::MAX][self.rng.below(3)];
        self.put(box_no, site + 1, word)
    }

    fn stamp(&mut self) -> Option<()> {
        let box_no = self.any_box()?;
        let stamp = [MAX_STAMP + 1, MAX_STAMP + 2, u32::MAX][self.rng.below(3)];
        self.put(box_no, 0, stamp)
    }

    fn line_past_end(&mut self) -> Option<()> {
        let (box_no, thread) = self.any_thread()?;
        let lines = self.model.boxes()[box_no].lines().len() as u32;
        let line = [lines, lines + 1, lines + 65_536, u32::MAX][self.rng.below(4)];
        self.put(box_no, thread, line)
    }

    fn type_empty(&mut self) -> Option<()> {
        let (box_no, site) = self.any_site()?;
        self.clear_type(box_no, site);
        Some(())
    }

    /// Two free names of a type, as words, ascending.
    fn two_free(&mut self) -> Option<(u32, u32)> {
        let mut free = self.model.free().into_iter();
        Some((Held::free(free.next()?).0, Held::free(free.next()?).0))
    }

    fn put_type(&mut self, words: &[u32]) -> Option<()> {
        let (box_no, site) = self.any_site()?;
        self.write_type(box_no, site, words)
    }

    fn type_falling(&mut self) -> Option<()> {
        let (low, high) = self.two_free()?;
        self.put_type(&[high, low])
    }

    fn type_repeated(&mut self) -> Option<()> {
        let (low, _) = self.two_free()?;
        self.put_type(&[low, low])
    }

    fn type_gap(&mut self) -> Option<()> {
        let (low, high) = self.two_free()?;
        if self.rng.percent(50) { self.put_type(&[low, 0, high]) } else { self.put_type(&[0, low]) }
    }

    fn subject_twice(&mut self) -> Option<()> {
        let box_no = self.any_box()?;
        let record = self.record(box_no);
        if record.site_count() < 2 {
            return None;
        }
        let (first, last) = (record.sites().next()?.subject(), record.site_count() - 1);
        self.put(box_no, SITES_AT + SITE_WORDS * last, first.0)
    }

    /// A restricted name that has been made as a subject.
    fn subject_of_wrong_kind(&mut self) -> Option<()> {
        let (name, binder) = self.made_name()?;
        let made = self.model.kind(name) == NameKind::Restricted;
        let stamp = self.record(binder).stamp();
        let (box_no, site) = self.any_site()?;
        if !made || stamp == 0 {
            return None;
        }
        self.put(box_no, site, Held::new(name, stamp).0)
    }

    fn binding_lost(&mut self) -> Option<()> {
        let (box_no, at) = self.any_binding()?;
        self.put(box_no, at, 0)
    }

    /// A binding of a name that is not bound above the thread's line.
    fn binding_extra(&mut self) -> Option<()> {
        let (box_no, thread) = self.any_thread()?;
        let held = Held::free(self.model.free().lowest()?);
        let words = &self.words[box_no * RECORD_WORDS + thread..][..THREAD_WORDS];
        let names = self.model.kinds().len();
        let unbound: Vec<usize> = (1..=names).filter(|at| words[*at] == 0).collect();
        let at = self.rng.pick(&unbound)?;
        self.put(box_no, thread + at, held.0)
    }

    fn binding_past_names(&mut self) -> Option<()> {
        let names = self.model.kinds().len();
        let (box_no, thread) = self.any_thread()?;
        let held = Held::free(self.model.free().lowest()?);
        let at = if names == 60 { return None } else { self.rng.between(names + 1, 60) };
        self.put(box_no, thread + at, held.0)
    }

    fn held_past_list(&mut self) -> Option<()> {
        let number = self.rng.between(self.model.kinds().len(), 63) as u8;
        self.put_held(Held::free(NameNo(number)))
    }

    fn held_received(&mut self) -> Option<()> {
        let name = self.name_of_kind(NameKind::Received)?;
        let stamp = self.rng.below(2) as u32;
        self.put_held(Held::new(name, stamp))
    }

    fn free_with_stamp(&mut self) -> Option<()> {
        let name = self.name_of_kind(NameKind::Free)?;
        self.put_held(Held::new(name, 1))
    }

    fn made_without_stamp(&mut self) -> Option<()> {
        let (name, _) = self.made_name()?;
        self.put_held(Held::new(name, 0))
    }

    fn stamp_not_yet(&mut self) -> Option<()> {
        let (name, binder) = self.made_name()?;
        let stamp = self.record(binder).stamp() + 1;
        if stamp > MAX_STAMP { None } else { self.put_held(Held::new(name, stamp)) }
    }

    /// A stamp that another box has reached but the binding box has not.
    fn stamp_of_other_box(&mut self) -> Option<()> {
        let (name, binder) = self.made_name()?;
        let boxes = 0..self.model.boxes().len();
        let highest = boxes.map(|box_no| self.record(box_no).stamp()).max()?;
        if highest <= self.record(binder).stamp() {
            return None;
        }
        self.put_held(Held::new(name, highest))
    }

    /// A name of kind 1 or 3 that no line binds.
    fn never_bound(&mut self) -> Option<()> {
        let names = self.model.listed().into_iter().filter(|name| {
            let kind = self.model.kind(*name);
            matches!(kind, NameKind::Restricted | NameKind::Exposed)
                && self.model.binder(*name).is_none()
        });
        let names: Vec<NameNo> = names.collect();
        let name = self.rng.pick(&names)?;
        self.put_held(Held::new(name, 1))
    }
}
