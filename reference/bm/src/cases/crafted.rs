//! Small models made for one refusal or clause each.

use crate::model::Model;
use crate::names::MAX_STAMP;
use crate::step::Move;
use crate::text::assemble;

/// A model that has every clause.
pub const EVERY_CLAUSE: &str = "
    free x z u v c h
    restricted n
    received y
    exposed e
    box
      site x {c}
      hidden h {c}
      x(y).0 | x<z>.0 | new n.expose e {c}.hide e.unhide h.0
    box
      site u {c}
      u<v>.0";

/// The image of a text's model.
pub fn image(text: &str) -> Vec<u8> {
    assemble(text).expect("a text that can be assembled").model.image()
}

/// The model of a text.
pub fn model(text: &str) -> Model {
    Model::read(&image(text)).expect("assembled models are accepted")
}

/// A model of 60 names, whose box makes the last of them over and over: by new
/// or by expose.
pub fn last_name(by_new: bool) -> Model {
    let free: String = (0..59).map(|at| format!("f{at} ")).collect();
    let (kind, line) = if by_new { ("restricted", "new n") } else { ("exposed", "expose n {f1}") };
    model(&format!("free {free} {kind} n box site f0 {{f1}} !{line}.0"))
}

/// A list of moves whose last one is refused, and how.
pub struct RefusedMove {
    pub number: u8,
    pub text: &'static str,
    pub moves: &'static [[u32; 5]],
    /// The last stamp of box 0 at the beginning.
    pub stamp: u32,
}

impl RefusedMove {
    pub fn moves(&self) -> Vec<Move> {
        self.moves.iter().copied().map(Move::new).collect()
    }
}

const K: &str = "
    free x z received y free u v c
    box site x {c} x(y).0 | x<z>.0
    box site u {c} u<v>.0";

/// A case for each of the refusals 12 to 20.
pub const REFUSED_MOVES: [RefusedMove; 9] = [
    RefusedMove { number: 12, text: K, moves: &[[2, 0, 1, 0, 0]], stamp: 0 },
    RefusedMove { number: 13, text: K, moves: &[[2, 0, 0, 0, 0], [8, 0, 0, 0, 0]], stamp: 0 },
    RefusedMove { number: 14, text: K, moves: &[[9, 0, 0, 1, 0]], stamp: 0 },
    RefusedMove {
        number: 15,
        text: "free x z c received y box site x {c} x(y).0 | z<x>.0",
        moves: &[[2, 0, 0, 0, 0], [8, 0, 0, 0, 1]],
        stamp: 0,
    },
    RefusedMove {
        number: 16,
        text: "free x u v c received y
            box hidden x {c} x(y).0
            box site u {c} u<v>.0",
        moves: &[[9, 0, 0, 1, 0]],
        stamp: 0,
    },
    RefusedMove {
        number: 17,
        text: "free x u v c d received y
            box site x {c} x(y).0
            box site u {d} u<v>.0",
        moves: &[[9, 0, 0, 1, 0]],
        stamp: 0,
    },
    private(
        "free x u c received y restricted n
            box site x {c} x(y).0
            box site u {c} new n.u<n>.0",
    ),
    RefusedMove {
        number: 19,
        text: "free x c box site x {c} !0",
        moves: &[[4, 0, 0, 0, 0]; 16],
        stamp: 0,
    },
    RefusedMove {
        number: 20,
        text: "free x c restricted n box site x {c} !new n.0",
        moves: &[[4, 0, 0, 0, 0], [4, 0, 0, 0, 0], [3, 0, 1, 0, 0], [3, 0, 2, 0, 0]],
        stamp: MAX_STAMP - 1,
    },
];

/// Inter moves that send a restricted name and meet another refusal too: 16
/// at the input's end and at the output's, and 17.
pub const PRIVATE_AND_MORE: [RefusedMove; 3] = [
    private(
        "free x u c received y restricted n
            box hidden x {c} x(y).0
            box site u {c} new n.u<n>.0",
    ),
    private(
        "free x u c received y restricted n
            box site x {c} x(y).0
            box hidden u {c} new n.u<n>.0",
    ),
    private(
        "free x u c d received y restricted n
            box site x {c} x(y).0
            box site u {d} new n.u<n>.0",
    ),
];

/// Box 1 makes a name and would send it to box 0.
const fn private(text: &'static str) -> RefusedMove {
    RefusedMove { number: 18, text, moves: &[[3, 1, 0, 0, 0], [9, 0, 0, 1, 0]], stamp: 0 }
}
