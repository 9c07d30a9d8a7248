//! States that no run comes to, or seldom, and that keep the state rules.

use super::change::{Change, Hand, SITES_AT, THREADS_AT, changes};
use crate::model::LineNo;
use crate::names::{Held, MAX_STAMP, NameKind, NameNo};
use crate::state::{RECORD_WORDS, SITE_WORDS, THREAD_WORDS};

changes! {
    ODDITIES:
    own_subject_in_type, no_thread, no_site, name_of_other_box, last_stamps, full_of_threads,
    full_of_sites, eight_in_type, two_stamps_in_type, subject_of_two_boxes, any_binding_held,
    all_hidden, thread_elsewhere,
}

impl Hand<'_> {
    /// The held names that the state may hold: the free ones, and of each
    /// made one the first and the last stamp.
    fn held_names(&self) -> Vec<Held> {
        let stamps = |name: NameNo| match (self.model.kind(name), self.model.binder(name)) {
            (NameKind::Free, _) => vec![0],
            (NameKind::Restricted | NameKind::Exposed, Some(binder)) => {
                let last = self.record(binder).stamp();
                if last < 2 { (1..=last).collect() } else { vec![1, last] }
            }
            _ => Vec::new(),
        };
        let listed = self.model.listed().into_iter();
        listed
            .flat_map(|name| stamps(name).into_iter().map(move |at| Held::new(name, at)))
            .collect()
    }

    /// Raises the last stamp of a box to this one, if it is lower.
    fn raise_stamp(&mut self, box_no: usize, stamp: u32) {
        let last = &mut self.words[box_no * RECORD_WORDS];
        *last = (*last).max(stamp);
    }

    /// A held name that a site may have as subject, and that no site of the
    /// box has.
    fn new_subject(&mut self, box_no: usize) -> Option<Held> {
        let is_subject = |held: &Held| {
            matches!(self.model.kind(held.name()), NameKind::Free | NameKind::Exposed)
        };
        let taken: Vec<Held> = self.record(box_no).sites().map(|site| site.subject()).collect();
        let mut names = self.held_names();
        names.retain(|held| is_subject(held) && !taken.contains(held));
        self.rng.pick(&names)
    }

    /// Appends a site with a type of one name.
    fn push_site(&mut self, box_no: usize, subject: Held) -> Option<()> {
        let sites = self.record(box_no).site_count();
        let names = self.held_names();
        let (ty, hidden) = (self.rng.pick(&names)?, self.rng.below(2) as u32);
        if sites == 16 {
            return None;
        }
        let site = SITES_AT + SITE_WORDS * sites;
        self.put(box_no, site, subject.0)?;
        self.put(box_no, site + 1, hidden)?;
        self.put(box_no, site + 2, ty.0)?;
        self.put(box_no, 2, sites as u32 + 1)
    }

    /// Fills a box up to this many threads with copies of those it has.
    fn fill_threads(&mut self, box_no: usize, count: usize) -> Option<()> {
        let threads = self.record(box_no).thread_count();
        if threads == 0 {
            return None;
        }
        let start = box_no * RECORD_WORDS + THREADS_AT;
        for at in threads..count {
            let like = start + THREAD_WORDS * self.rng.below(threads);
            self.words.copy_within(like..like + THREAD_WORDS, start + THREAD_WORDS * at);
        }
        self.put(box_no, 1, threads.max(count) as u32)
    }
}

impl Hand<'_> {
    fn own_subject_in_type(&mut self) -> Option<()> {
        let (box_no, site) = self.any_site()?;
        let subject = self.words[box_no * RECORD_WORDS + site];
        self.write_type(box_no, site, &[subject])
    }

    fn no_thread(&mut self) -> Option<()> {
        let start = self.any_box()? * RECORD_WORDS;
        self.words[start + 1] = 0;
        self.words[start + THREADS_AT..start + RECORD_WORDS].fill(0);
        Some(())
    }

    fn no_site(&mut self) -> Option<()> {
        let start = self.any_box()? * RECORD_WORDS;
        self.words[start + 2] = 0;
        self.words[start + SITES_AT..start + THREADS_AT].fill(0);
        Some(())
    }

    /// A name that another box binds, with a stamp that this box has not
    /// reached.
    fn name_of_other_box(&mut self) -> Option<()> {
        let (name, binder) = self.made_name()?;
        let (box_no, site) = self.any_site()?;
        let stamp = self.record(box_no).stamp() + 1;
        if box_no == binder || stamp > MAX_STAMP {
            return None;
        }
        self.raise_stamp(binder, stamp);
        self.write_type(box_no, site, &[Held::new(name, stamp).0])
    }

    fn last_stamps(&mut self) -> Option<()> {
        let box_no = self.any_box()?;
        let stamp = MAX_STAMP - self.rng.below(2) as u32;
        self.raise_stamp(box_no, stamp);
        Some(())
    }

    fn full_of_threads(&mut self) -> Option<()> {
        let box_no = self.any_box()?;
        let count = self.rng.between(15, 16);
        self.fill_threads(box_no, count)
    }

    fn full_of_sites(&mut self) -> Option<()> {
        let box_no = self.any_box()?;
        let (before, sites) = (self.words.to_vec(), self.record(box_no).site_count());
        for _ in sites..16 {
            let pushed = self.new_subject(box_no).and_then(|held| self.push_site(box_no, held));
            if pushed.is_none() {
                self.words.copy_from_slice(&before);
                return None;
            }
        }
        Some(())
    }

    fn eight_in_type(&mut self) -> Option<()> {
        let mut names: Vec<u32> = self.held_names().iter().map(|held| held.0).collect();
        self.rng.shuffle(&mut names);
        names.truncate(8);
        names.sort();
        let (box_no, site) = self.any_site()?;
        if names.len() < 8 { None } else { self.write_type(box_no, site, &names) }
    }

    fn two_stamps_in_type(&mut self) -> Option<()> {
        let (name, binder) = self.made_name()?;
        let (box_no, site) = self.any_site()?;
        self.raise_stamp(binder, 2);
        let last = self.record(binder).stamp();
        let ty = [last - 1, last].map(|stamp| Held::new(name, stamp).0);
        self.write_type(box_no, site, &ty)
    }

    fn subject_of_two_boxes(&mut self) -> Option<()> {
        let (box_no, site) = self.any_site()?;
        let subject = Held(self.words[box_no * RECORD_WORDS + site]);
        let other = self.any_box()?;
        let has = self.record(other).sites().any(|site| site.subject() == subject);
        if has { None } else { self.push_site(other, subject) }
    }

    /// A binding of any kind holds any held name.
    fn any_binding_held(&mut self) -> Option<()> {
        let names = self.held_names();
        let held = self.rng.pick(&names)?;
        let (box_no, at) = self.any_binding()?;
        self.put(box_no, at, held.0)
    }

    fn all_hidden(&mut self) -> Option<()> {
        let box_no = self.any_box()?;
        for site in 0..self.record(box_no).site_count() {
            self.put(box_no, SITES_AT + SITE_WORDS * site + 1, 1)?;
        }
        Some(())
    }

    /// A thread at any line, with what is bound above it held by any names.
    fn thread_elsewhere(&mut self) -> Option<()> {
        let (box_no, thread) = self.any_thread()?;
        let names = self.held_names();
        let def = &self.model.boxes()[box_no];
        let line = LineNo(self.rng.below(def.lines().len()) as u16);
        let above: Vec<NameNo> = def.above(line).into_iter().collect();
        let start = box_no * RECORD_WORDS + thread;
        let held: Vec<u32> =
            above.iter().filter_map(|_| self.rng.pick(&names)).map(|held| held.0).collect();
        if held.len() < above.len() {
            return None;
        }
        self.words[start..start + THREAD_WORDS].fill(0);
        self.words[start] = u32::from(line.0);
        for (name, held) in above.into_iter().zip(held) {
            self.words[start + 1 + name.index()] = held;
        }
        Some(())
    }
}
