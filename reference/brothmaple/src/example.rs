//! The images of model K and of its estimate E, on which the examples run.
//!
//! Box 0 receives on x, from itself or, through its site, from box 1:
//!
//! ```text
//! box 0: site x {c}   x(y).0 | x<z>.0
//! box 1: site u {c}   u<v>.0
//! ```
//!
//! The names have the numbers 0 x, 1 z, 2 y, 3 u, 4 v, 5 c.

/// Model K.
pub const MODEL: &[u8] = include_bytes!("../../../examples/k/accepted/model.blk");

/// Estimate E, which is accepted.
pub const ESTIMATE: &[u8] = include_bytes!("../../../examples/k/accepted/estimate.blk");

/// Estimate E with z taken out of rho(y), which breaks clause 5.
pub const BROKEN: &[u8] = include_bytes!("../../../examples/k/clause-5-0-1/estimate.blk");
