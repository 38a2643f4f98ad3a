//! How the vertices of a lent path stand in its numbers: x, y, bulge and trace of one after the other.

/// How many numbers a vertex has.
pub const VERTEX: usize = 4;
/// Where the bulge is among them, and the trace.
#[cfg(feature = "rust-text")]
pub const BULGE: usize = 2;
pub const TRACE: usize = 3;
