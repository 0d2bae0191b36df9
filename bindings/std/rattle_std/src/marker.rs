//! Types that only contracts see.

pub use std::marker::*;

/// Says how contracts see a type. Erased with them; the name stays, since sources import it.
pub trait Model {}

/// Names a token's kind by what a clause says of it.
pub struct Brand;
