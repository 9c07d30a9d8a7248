//! Damage to a pair of images, chosen by what stands at the place: mostly a field gets another plausible value and its block a check
//! that fits, so that the pair is often still read and a clause decides.

use bm::block::{self, BLOCK, WORDS, kind};
use bm::cases::random;
use bm::cases::rng::Rng;
use bm::estimate::{HIDDEN_WORD, SHOWN_WORD};
use bm::model::{MAX_BOXES, MAX_MODEL};
use bm::names::MAX_NAMES;
use bm::write::put_word;
use bm::{Model, NameNo, NameSet};

/// A pair of images, and the source of what happens to them.
pub struct DamagedPair {
    rng: Rng,
    pub model: Vec<u8>,
    pub estimate: Vec<u8>,
}

/// A block under change, with the names that the model's head lists: their count and the free ones.
struct Place<'a> {
    rng: &'a mut Rng,
    names: usize,
    free: NameSet,
    block: &'a mut [u8; BLOCK],
}

type Way = fn(&mut DamagedPair);

/// The ways of damage, each with its weight: how often it is taken among all.
const WAYS: [(usize, Way); 15] = [
    (14, DamagedPair::plain),
    (3, DamagedPair::odd_length),
    (7, DamagedPair::blocks_more_or_fewer),
    (5, DamagedPair::exchange),
    (4, DamagedPair::exchange_contents),
    (4, DamagedPair::wrong_check),
    (7, DamagedPair::heading),
    (12, DamagedPair::count),
    (8, DamagedPair::name_kind),
    (10, DamagedPair::site),
    (22, DamagedPair::line),
    (4, DamagedPair::stray),
    (25, DamagedPair::take_member),
    (60, DamagedPair::take_asked_member),
    (24, DamagedPair::add_member),
];

impl DamagedPair {
    /// A damaged copy of a pair: damaged once or a few times, until something differs.
    pub fn damaged(rng: Rng, model: &[u8], estimate: &[u8]) -> DamagedPair {
        let mut pair = DamagedPair { rng, model: model.to_vec(), estimate: estimate.to_vec() };
        let mut left: u8 = [1, 1, 1, 2, 2, 3][pair.rng.below(6)];
        while left > 0 || (pair.model == model && pair.estimate == estimate) {
            pair.once();
            left = left.saturating_sub(1);
        }
        pair
    }

    /// One way of damage; then, if the model is still read, sometimes an estimate made anew.
    fn once(&mut self) {
        self.some_way();
        if self.rng.percent(15) {
            self.estimate_anew();
        }
    }

    fn some_way(&mut self) {
        let sum: usize = WAYS.iter().map(|(weight, _)| weight).sum();
        let mut left = self.rng.below(sum);
        for (weight, way) in WAYS {
            if left < weight {
                return way(self);
            }
            left -= weight;
        }
    }

    /// An accepted estimate for the model, if it is read.
    fn estimate_anew(&mut self) {
        if let Ok(model) = Model::read(&self.model) {
            self.estimate = random::accepted(&mut self.rng, &model).image(model.boxes().len());
        }
    }

    fn either_image(&mut self) -> &mut Vec<u8> {
        if self.rng.percent(50) { &mut self.model } else { &mut self.estimate }
    }

    /// The names that the model's head counts, taken as 1 to 60.
    fn names(&self) -> usize {
        let count = self.model.get(8..16).and_then(|word| word.first_chunk());
        let count = count.map_or(0, |word| u64::from_le_bytes(*word));
        count.clamp(1, MAX_NAMES as u64) as usize
    }

    /// The names that the model's head lists as free.
    fn free(&self) -> NameSet {
        let Some(head) = self.model.first_chunk() else { return NameSet::EMPTY };
        let free = (0..self.names()).filter(|name| block::Block(head).word(2 + name) == 0);
        free.map(|name| NameNo(name as u8)).collect()
    }

    /// Changes some block of this kind, and mostly makes its check anew.
    fn edit(&mut self, kind: u8, change: impl FnOnce(&mut Place<'_>)) {
        let (names, free) = (self.names(), self.free());
        let image = if kind <= kind::LINES { &mut self.model } else { &mut self.estimate };
        let (blocks, _) = image.as_chunks_mut::<BLOCK>();
        let places = (0..blocks.len()).filter(|at| blocks[*at][2] == kind);
        let Some(at) = self.rng.pick(&places.collect::<Vec<usize>>()) else { return };
        let block = &mut blocks[at];
        change(&mut Place { rng: &mut self.rng, names, free, block });
        if self.rng.percent(99) {
            block::seal(block);
        }
    }

    fn any_kind(&mut self) -> u8 {
        self.rng.between(1, 6) as u8
    }
}

/// Damage that does not ask what stands at the place.
impl DamagedPair {
    /// A byte or a bit anywhere, mostly with the block's check made anew.
    fn plain(&mut self) {
        let (word, bit, sealed) = (self.rng.word(), self.rng.percent(50), self.rng.percent(90));
        let image = self.either_image();
        if image.is_empty() {
            return;
        }
        let at = (word >> 16) as usize % image.len();
        image[at] = if bit { image[at] ^ (1 << (word & 7)) } else { word as u8 };
        let whole = image.get_mut(at / BLOCK * BLOCK..).and_then(|rest| rest.first_chunk_mut());
        if let (Some(block), true) = (whole, sealed) {
            block::seal(block);
        }
    }

    /// Any length up to one past the largest model's last block.
    fn odd_length(&mut self) {
        let len = self.rng.below(MAX_MODEL + BLOCK + 3);
        self.either_image().resize(len, 0);
    }

    /// Whole blocks fewer, or copies of the last block more, numbered on.
    fn blocks_more_or_fewer(&mut self) {
        let (fewer, some, checked) =
            (self.rng.percent(50), self.rng.between(1, 3), self.rng.percent(80));
        let image = self.either_image();
        if fewer {
            return image.truncate(image.len().saturating_sub(some * BLOCK));
        }
        for _ in 0..some {
            let Some(mut last) = image.last_chunk::<BLOCK>().copied() else { return };
            last[0] = last[0].wrapping_add(1);
            if checked {
                block::seal(&mut last);
            }
            image.extend_from_slice(&last);
        }
    }

    /// Two blocks of one image, exchanged as they are.
    fn exchange(&mut self) {
        let (one, other) = (self.rng.below(41), self.rng.below(41));
        let (blocks, _) = self.either_image().as_chunks_mut::<BLOCK>();
        if !blocks.is_empty() {
            blocks.swap(one % blocks.len(), other % blocks.len());
        }
    }

    /// Two blocks of one kind, exchanged but for number and box.
    fn exchange_contents(&mut self) {
        let kind = [kind::SITES, kind::LINES, kind::EPSILON, kind::KAPPA][self.rng.below(4)];
        let image = if kind <= kind::LINES { &mut self.model } else { &mut self.estimate };
        let (blocks, _) = image.as_chunks_mut::<BLOCK>();
        let mut places: Vec<&mut [u8; BLOCK]> =
            blocks.iter_mut().filter(|block| block[2] == kind).collect();
        self.rng.shuffle(&mut places);
        if let [one, other, ..] = places.as_mut_slice() {
            one[4..].swap_with_slice(&mut other[4..]);
            block::seal(one);
            block::seal(other);
        }
    }

    /// A bit of a block's check.
    fn wrong_check(&mut self) {
        let word = self.rng.word();
        let (blocks, _) = self.either_image().as_chunks_mut::<BLOCK>();
        if !blocks.is_empty() {
            let at = (word >> 16) as usize % blocks.len();
            blocks[at][504 + (word >> 8) as usize % 8] ^= 1 << (word & 7);
        }
    }
}

/// Damage to a field.
impl DamagedPair {
    /// Number, kind, box or the zeros of a heading.
    fn heading(&mut self) {
        let kind = self.any_kind();
        self.edit(kind, |place| {
            let at = [0, 1, 2, 3, 6, 7][place.rng.below(6)];
            place.block[at] = place.rng.below(9) as u8;
        });
    }

    /// The counts of the model's head, or the count of a heading.
    fn count(&mut self) {
        if self.rng.percent(40) {
            return self.edit(kind::HEAD, |place| place.head_count());
        }
        let kind = self.any_kind();
        self.edit(kind, |place| {
            place.block[4] = place.near(place.block[4].into()) as u8;
        });
    }

    fn name_kind(&mut self) {
        self.edit(kind::HEAD, |place| {
            let (name, kind) = (place.rng.below(place.names), place.rng.below(5));
            put_word(place.block, 2 + name, kind as u64);
        });
    }

    fn site(&mut self) {
        self.edit(kind::SITES, |place| place.site_field());
    }

    fn line(&mut self) {
        self.edit(kind::LINES, |place| place.line_field());
    }

    /// A word with a bit past the names.
    fn stray(&mut self) {
        let kind = self.any_kind();
        self.edit(kind, |place| {
            let (word, bit) = (place.rng.below(WORDS), place.rng.between(place.names, 63));
            put_word(place.block, word, 1 << bit);
        });
    }

    fn set_kind(&mut self) -> u8 {
        [kind::RHO, kind::EPSILON, kind::KAPPA][self.rng.below(3)]
    }

    /// A member fewer in a set of the estimate.
    fn take_member(&mut self) {
        let kind = self.set_kind();
        self.edit(kind, |place| {
            let sets: Vec<usize> = (0..WORDS).filter(|word| place.word(*word) != 0).collect();
            if let Some(word) = place.rng.pick(&sets) {
                place.take_any(word);
            }
        });
    }

    /// A member fewer in a set that some line asks for. The operation is drawn first, so that rare ones come too; unhide most often, since
    /// clause 9 is broken most seldom. The name that a line hides or shows stands then, mostly, in the other one of shown and hidden names.
    fn take_asked_member(&mut self) {
        let operation = [3, 4, 5, 5, 6, 7, 8, 8, 8][self.rng.below(9)];
        let Some((box_no, record)) = self.line_of(operation) else { return };
        let (block, word) = asked_set(box_no, &record);
        let (names, free) = (self.names(), self.free());
        let (blocks, _) = self.estimate.as_chunks_mut::<BLOCK>();
        let Some(block) = blocks.get_mut(block) else { return };
        let mut place = Place { rng: &mut self.rng, names, free, block };
        if operation >= 7 && place.rng.percent(60) {
            let name = NameNo(record[1] % MAX_NAMES as u8);
            place.take(word, name);
            place.put(SHOWN_WORD + HIDDEN_WORD - word, name);
        } else {
            place.take_any(word);
        }
        block::seal(block);
    }

    /// Some line of this operation: its box and its record.
    fn line_of(&mut self, operation: u8) -> Option<(usize, [u8; 16])> {
        let (blocks, _) = self.model.as_chunks::<BLOCK>();
        let lines = blocks.iter().filter(|block| block[2] == kind::LINES).flat_map(|block| {
            let records = block::Block(block).records().iter();
            records.map(|record| (usize::from(block[3]), *record))
        });
        let lines: Vec<(usize, [u8; 16])> =
            lines.filter(|(_, record)| record[0] == operation).collect();
        self.rng.pick(&lines)
    }

    /// A listed name more in a set of the estimate.
    fn add_member(&mut self) {
        let kind = self.set_kind();
        self.edit(kind, |place| {
            let iota = kind == kind::EPSILON && place.rng.percent(30);
            let word = if iota { place.rng.between(SHOWN_WORD, HIDDEN_WORD) } else { place.name() };
            let set = place.word(word) | 1 << place.name();
            put_word(place.block, word, set);
        });
    }
}

/// A set of the estimate that a line asks for: its block and its word.
fn asked_set(box_no: usize, record: &[u8; 16]) -> (usize, usize) {
    let [operation, first, second] = [record[0], record[1], record[2]].map(usize::from);
    let (eps, kap) = (1 + 2 * box_no, 2 + 2 * box_no);
    match operation {
        4 => (kap, first % MAX_NAMES),
        5 => (0, second % MAX_NAMES),
        6 => (eps, first % MAX_NAMES),
        7 => (eps, HIDDEN_WORD),
        8 => (eps, SHOWN_WORD),
        _ => (0, first % MAX_NAMES),
    }
}

impl Place<'_> {
    fn word(&self, index: usize) -> u64 {
        block::Block(self.block).word(index)
    }

    /// Takes some member out of the set in this word, if it has one.
    fn take_any(&mut self, word: usize) {
        let members: Vec<NameNo> = NameSet(self.word(word)).into_iter().collect();
        if let Some(member) = self.rng.pick(&members) {
            self.take(word, member);
        }
    }

    fn take(&mut self, word: usize, member: NameNo) {
        put_word(self.block, word, NameSet(self.word(word)).without(member).0);
    }

    fn put(&mut self, word: usize, member: NameNo) {
        put_word(self.block, word, NameSet(self.word(word)).with(member).0);
    }

    /// A listed name.
    fn name(&mut self) -> usize {
        self.rng.below(self.names)
    }

    /// A listed name, seldom the first number past them.
    fn name_or_past(&mut self) -> u8 {
        if self.rng.percent(10) { self.names as u8 } else { self.name() as u8 }
    }

    /// A number at most two away, or, from 0 and 1, at most four.
    fn near(&mut self, number: usize) -> usize {
        number.saturating_sub(2) + self.rng.below(5)
    }

    fn head_count(&mut self) {
        let word = self.rng.below(2);
        let limit = [MAX_NAMES, MAX_BOXES][word] + 1;
        let near = self.near(self.word(word) as usize);
        put_word(self.block, word, near.min(limit) as u64);
    }

    /// Where some record in use begins.
    fn record(&mut self) -> usize {
        let count = block::Block(self.block).count().clamp(1, 31);
        8 + 16 * self.rng.below(count)
    }

    /// One name in or out of the type of the record that begins here, or another type: 7 to 9
    /// free names, where 8 are allowed.
    fn change_type(&mut self, record: usize) {
        if self.rng.percent(40) {
            let mut free: Vec<NameNo> = self.free.into_iter().collect();
            self.rng.shuffle(&mut free);
            free.truncate(self.rng.between(7, 9));
            let ty: NameSet = free.into_iter().collect();
            return self.block[record + 8..record + 16].copy_from_slice(&ty.0.to_le_bytes());
        }
        let name = usize::from(self.name_or_past());
        self.block[record + 8 + name / 8] ^= 1 << (name % 8);
    }

    fn site_field(&mut self) {
        let record = self.record();
        match self.rng.below(8) {
            0..3 => self.block[record] = self.name_or_past(),
            3 | 4 => self.block[record + 1] = self.rng.below(3) as u8,
            5 => self.block[record + self.rng.between(2, 7)] = self.rng.below(2) as u8,
            _ => self.change_type(record),
        }
    }

    /// Mostly a field that the line's operation uses.
    fn line_field(&mut self) {
        let record = self.record();
        let fields: &[usize] = match self.block[record] {
            _ if self.rng.percent(10) => &[0, 1, 2, 3, 4, 6, 8],
            1 => &[0, 4, 6],
            2 => &[0, 4],
            3 | 7 | 8 => &[0, 1, 1, 4],
            4 | 5 => &[0, 1, 1, 2, 2, 4],
            6 => &[0, 1, 4, 8, 8, 8],
            _ => &[0],
        };
        let field = fields[self.rng.below(fields.len())];
        match field {
            0 => self.block[record] = self.rng.below(10) as u8,
            1 | 2 => self.block[record + field] = self.name_or_past(),
            3 => self.block[record + 3] = self.rng.below(2) as u8,
            4 | 6 => self.change_child(record + field),
            _ => self.change_type(record),
        }
    }

    fn change_child(&mut self, at: usize) {
        self.block[at] = self.near(self.block[at].into()) as u8;
    }
}
