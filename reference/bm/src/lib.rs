//! Beta-binders models, their estimates and their moves.
//!
//! A model and an estimate are images of 512-byte blocks, a state is 9,112
//! words. [`calls`] holds the calls on images; the other modules hold what
//! they are made of, for callers that read a model once and use it often.

#![forbid(unsafe_code)]

pub mod block;
pub mod calls;
pub mod cases;
pub mod clauses;
pub mod estimate;
pub mod least;
pub mod listing;
pub mod model;
pub mod names;
pub mod refusal;
pub mod shape;
pub mod state;
pub mod step;
pub mod text;
pub mod write;

pub use calls::{ShutOff, Verdict};
pub use clauses::Broken;
pub use estimate::Estimate;
pub use model::Model;
pub use names::{Held, NameKind, NameNo, NameSet};
pub use refusal::{Cause, Refusal};
pub use step::Move;
