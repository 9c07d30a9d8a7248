//! Blocks of 512 bytes, and the order in which an image holds them.

use crate::refusal::{Cause, Refusal};

/// The bytes of a block.
pub const BLOCK: usize = 512;
/// The words between a block's heading and its check.
pub const WORDS: usize = 62;

/// The kinds of block.
pub mod kind {
    pub const HEAD: u8 = 1;
    pub const SITES: u8 = 2;
    pub const LINES: u8 = 3;
    pub const RHO: u8 = 4;
    pub const EPSILON: u8 = 5;
    pub const KAPPA: u8 = 6;
}

/// The words that the check covers.
const CHECKED: usize = 63;

/// `POWERS[i]` is the power of 31 that multiplies word `i` in the check.
const POWERS: [u64; CHECKED] = {
    let mut powers = [1u64; CHECKED];
    let mut i = CHECKED - 1;
    while i > 0 {
        powers[i - 1] = powers[i].wrapping_mul(31);
        i -= 1;
    }
    powers
};
/// What the starting 1 has become after 63 multiplications.
const START: u64 = POWERS[0].wrapping_mul(31);

/// The check of bytes 0 to 503: starting at 1, for each of the 63 words, 31
/// times itself plus the word, modulo 2^64. Written as a sum of products, so
/// that no product waits for the one before.
pub fn check(block: &[u8; BLOCK]) -> u64 {
    let (words, _) = block.as_chunks::<8>();
    words.iter().zip(&POWERS).fold(START, |sum, (word, power)| {
        sum.wrapping_add(u64::from_le_bytes(*word).wrapping_mul(*power))
    })
}

/// Writes the check into bytes 504 to 511.
pub fn seal(block: &mut [u8; BLOCK]) {
    let sum = check(block);
    block[504..].copy_from_slice(&sum.to_le_bytes());
}

/// A block that stands in an image.
#[derive(Clone, Copy, Debug)]
pub struct Block<'a>(pub &'a [u8; BLOCK]);

impl<'a> Block<'a> {
    fn two_bytes(self, at: usize) -> usize {
        usize::from(u16::from_le_bytes([self.0[at], self.0[at + 1]]))
    }

    /// The record count of the heading.
    pub fn count(self) -> usize {
        self.two_bytes(4)
    }

    /// Word `index` of the 62.
    pub fn word(self, index: usize) -> u64 {
        let (words, _) = self.0.as_chunks::<8>();
        u64::from_le_bytes(words[1 + index])
    }

    /// The 31 places of records of 16 bytes.
    pub fn records(self) -> &'a [[u8; 16]] {
        self.0[8..504].as_chunks().0
    }

    /// Whether the words from `index` on are zero.
    pub fn zero_from(self, index: usize) -> bool {
        self.0[8 + 8 * index..504].iter().fold(0, |bits, byte| bits | byte) == 0
    }

    fn sealed(self) -> bool {
        self.0[504..] == check(self.0).to_le_bytes()
    }

    fn heads(self, number: usize, kind: u8, box_no: usize) -> bool {
        self.two_bytes(0) == number
            && self.0[2] == kind
            && usize::from(self.0[3]) == box_no
            && self.two_bytes(6) == 0
    }
}

/// The blocks of an image, taken in order.
#[derive(Debug)]
pub struct Blocks<'a> {
    blocks: &'a [[u8; BLOCK]],
    taken: usize,
}

impl<'a> Blocks<'a> {
    /// The blocks of an image of whole blocks.
    pub fn of(image: &'a [u8]) -> Blocks<'a> {
        Blocks { blocks: image.as_chunks().0, taken: 0 }
    }

    /// The next block, which must have this kind and box: refusals 1 to 3.
    pub fn take(&mut self, kind: u8, box_no: usize) -> Result<Block<'a>, Refusal> {
        let number = self.taken;
        let block = Block(self.blocks.get(number).ok_or(Cause::Length.at(number, 0))?);
        if !block.sealed() {
            return Err(Cause::Check.at(number, 0));
        }
        if !block.heads(number, kind, box_no) {
            return Err(Cause::Heading.at(number, 0));
        }
        self.taken += 1;
        Ok(block)
    }

    /// A refusal at the block taken last.
    pub fn refuse(&self, cause: Cause) -> Refusal {
        cause.at(self.taken - 1, 0)
    }

    /// Refuses the taken block with 4 unless its counts are right.
    pub fn counted(&self, right: bool) -> Result<(), Refusal> {
        if right { Ok(()) } else { Err(self.refuse(Cause::Count)) }
    }

    /// Refuses the taken block with 5 unless its unused words are zero.
    pub fn clean(&self, right: bool) -> Result<(), Refusal> {
        if right { Ok(()) } else { Err(self.refuse(Cause::Stray)) }
    }

    /// Refuses a block left over: with 2 if its check differs, else with 3.
    pub fn end(&self) -> Result<(), Refusal> {
        match self.blocks.get(self.taken) {
            None => Ok(()),
            Some(block) if !Block(block).sealed() => Err(Cause::Check.at(self.taken, 0)),
            Some(_) => Err(Cause::Heading.at(self.taken, 0)),
        }
    }
}

#[cfg(test)]
mod tests {
    use super::*;

    #[test]
    fn check_is_the_fold() {
        let mut block = [0u8; BLOCK];
        for (i, byte) in block.iter_mut().enumerate() {
            *byte = (i * 37 + 11) as u8;
        }
        let mut sum = 1u64;
        for word in block[..504].chunks(8) {
            let word = u64::from_le_bytes(word.try_into().unwrap());
            sum = sum.wrapping_mul(31).wrapping_add(word);
        }
        assert_eq!(check(&block), sum);
        assert!(!Block(&block).sealed());
        seal(&mut block);
        assert!(Block(&block).sealed());
    }
}
