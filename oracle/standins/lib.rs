//! The crate's block layout: its own files, and stand-ins for those that are not at hand.
//! `oracle/build` sets both side by side, in the places that they have in the crate.
// The crate's files name features and helpers that nothing here turns on or calls.
#![allow(dead_code, dropping_references, unexpected_cfgs)]
#![allow(unused_imports, unused_macros, unused_mut, unused_variables)]

pub mod compute;
pub mod geometry;
pub mod prelude;
pub mod style;
pub mod style_helpers;
pub mod tree;
#[macro_use]
pub mod util;

// The crate's files call each other by these flat names.
pub use crate::compute::*;
pub use crate::geometry::*;
pub use crate::style::*;
pub use crate::tree::*;
pub use crate::util::*;
