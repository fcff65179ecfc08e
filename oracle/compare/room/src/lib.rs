//! The unit's three calls, lent their slices between pages that no one may touch.

pub mod unit;
