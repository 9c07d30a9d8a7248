//! Each kind of move, word by word.

use bm::cases::crafted;
use bm::cases::walk;
use bm::state::{RECORD_WORDS, STATE_WORDS};
use bm::{Held, Move, NameNo, calls};

const A: NameNo = NameNo(0);
const C: NameNo = NameNo(1);
const X: NameNo = NameNo(2);
const U: NameNo = NameNo(3);
const N: NameNo = NameNo(4);
const Y: NameNo = NameNo(5);
const W: NameNo = NameNo(6);
const E: NameNo = NameNo(7);

/// Box 0 has the lines 0 new, 1 parallel, 2 output, 3 nil, 4 replication,
/// 5 input, 6 expose, 7 hide, 8 unhide, 9 output, 10 nil.
const TEXT: &str = "
    free a c x u
    restricted n
    received y w
    exposed e
    box
      site x {c}
      new n.(x<n>.0 | !x(y).expose e {c, y}.hide e.unhide e.e<a>.0)
    box
      site u {c}
      u(w).0";

/// A site: subject, hidden, type.
type Site<'a> = (Held, u32, &'a [Held]);
/// A thread: line, bindings.
type Thread<'a> = (u32, &'a [(NameNo, Held)]);

/// The words of a box's record, laid out anew.
fn record(stamp: u32, sites: &[Site<'_>], threads: &[Thread<'_>]) -> Vec<u32> {
    let mut words = vec![stamp, threads.len() as u32, sites.len() as u32];
    for (subject, hidden, ty) in sites {
        words.extend([subject.0, *hidden]);
        let mut places = [0; 8];
        for (place, held) in places.iter_mut().zip(*ty) {
            *place = held.0;
        }
        words.extend(places);
    }
    words.resize(3 + 160, 0);
    for (line, bindings) in threads {
        let mut places = [0; 60];
        for (name, held) in *bindings {
            places[name.index()] = held.0;
        }
        words.push(*line);
        words.extend(places);
    }
    words.resize(RECORD_WORDS, 0);
    words
}

fn state(boxes: &[Vec<u32>]) -> Vec<u32> {
    let mut words = boxes.concat();
    words.resize(STATE_WORDS, 0);
    words
}

#[test]
fn each_kind_of_move() {
    let image = crafted::image(TEXT);
    let mut words = walk::start(&crafted::model(TEXT));
    let (a, c, x, u) = (Held::free(A), Held::free(C), Held::free(X), Held::free(U));
    let (n, e) = (Held::new(N, 1), Held::new(E, 2));
    assert_eq!([a, c, n, e].map(|held| held.0), [1, 2, 69, 136]);
    let site_x: Site<'_> = (x, 0, &[c]);
    let mut waiting = record(0, &[(u, 0, &[c])], &[(0, &[])]);
    let has_n: &[(NameNo, Held)] = &[(N, n)];
    let has_ny: &[(NameNo, Held)] = &[(N, n), (Y, n)];
    let has_nye: &[(NameNo, Held)] = &[(N, n), (Y, n), (E, e)];
    let exposed =
        |hidden, line| record(2, &[site_x, (e, hidden, &[c, n])], &[(4, has_n), (line, has_nye)]);
    let steps = [
        ([3, 0, 0, 7, 7], record(1, &[site_x], &[(1, has_n)])),
        ([2, 0, 0, 7, 7], record(1, &[site_x], &[(2, has_n), (4, has_n)])),
        ([4, 0, 1, 7, 7], record(1, &[site_x], &[(2, has_n), (4, has_n), (5, has_n)])),
        ([8, 0, 2, 7, 0], record(1, &[site_x], &[(3, has_n), (4, has_n), (6, has_ny)])),
        ([1, 0, 0, 7, 7], record(1, &[site_x], &[(4, has_n), (6, has_ny)])),
        ([5, 0, 1, 7, 7], exposed(0, 7)),
        ([6, 0, 1, 7, 7], exposed(1, 8)),
        ([7, 0, 1, 7, 7], exposed(0, 9)),
        ([9, 1, 0, 0, 1], exposed(0, 10)),
    ];
    assert_eq!(words, state(&[record(0, &[site_x], &[(0, &[])]), waiting.clone()]));
    for (numbers, expected) in steps {
        assert_eq!(calls::step(&image, &mut words, Move::new(numbers)), Ok(()), "{numbers:?}");
        if numbers[0] == 9 {
            waiting = record(0, &[(u, 0, &[c])], &[(1, &[(W, a)])]);
        }
        assert_eq!(words, state(&[expected, waiting.clone()]), "{numbers:?}");
    }
}
