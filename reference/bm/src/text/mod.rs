//! The text form of models, estimates and moves. `docs/TEXT_FORM.md` describes it.

mod lex;
mod moves;
mod parse;
mod print;
mod tree;

pub use lex::{TextError, TextPlace, utf8};
pub use moves::moves;
pub use parse::{Assembled, assemble};
pub use print::{NameList, disassemble};
pub use tree::renumbered;
