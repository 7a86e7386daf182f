//! Stand-in for the list of the timer's register files: the one that there is.

mod dcr;

pub use dcr::*;
