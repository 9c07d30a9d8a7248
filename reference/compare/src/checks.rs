//! The block check on random images of every length.

use std::hint::black_box;

use bm::block::{self, BLOCK};
use bm::cases::rng::Rng;

use crate::report::{Part, Report};
use crate::{proved, timing};

const CHECKS: Part = Part { name: "block check", number: 1 };
/// How many images are tried, a case.
const IMAGES: u64 = 2;

/// The check of block `k`, or 0 where the image has no such block whole.
fn expected(image: &[u8], k: usize) -> u64 {
    let Some(start) = k.checked_mul(BLOCK) else { return 0 };
    let block = image.get(start..).and_then(|rest| rest.first_chunk::<BLOCK>());
    block.map_or(0, block::check)
}

pub fn compare(report: &mut Report) {
    for case in 0..IMAGES * report.plan.cases {
        let mut rng = report.begin(CHECKS, case);
        let len = rng.below(4 * BLOCK);
        let image: Vec<u8> = (0..len).map(|_| rng.word() as u8).collect();
        for k in [0, 1, 2, 3, 4, usize::MAX, usize::MAX / BLOCK] {
            let right = expected(&image, k);
            let check = proved::block_check(&image, k);
            report.call(check == right, || format!("check of block {k}: {check}, not {right}"));
        }
    }
}

/// A plain loop over the words, as the format describes the check.
fn plain(block: &[u8; BLOCK]) -> u64 {
    let (words, _) = block[..504].as_chunks::<8>();
    words.iter().fold(1u64, |c, word| c.wrapping_mul(31).wrapping_add(u64::from_le_bytes(*word)))
}

pub fn bench() {
    let mut rng = Rng::new(1);
    let image: Vec<u8> = (0..BLOCK).map(|_| rng.word() as u8).collect();
    let block: &[u8; BLOCK] = image.first_chunk().expect("one block");
    let pair =
        timing::both(|| proved::block_check(black_box(&image), 0), || plain(black_box(block)));
    timing::line("block check, 512 bytes", pair);
    println!("block check: {:.2} GB/s", BLOCK as f64 / pair.proved);
}
