//! The given Rust, compiled from its sources where they lie, as a library of its own.

#[cfg(feature = "one_crate")]
extern crate self as given;

mod missing;
#[cfg(feature = "one_crate")]
mod rust;

pub use missing::range_coder;
pub use missing::{older_reason, reason};

include!(concat!(env!("OUT_DIR"), "/given.rs"));
