//! Stand-in: the list of modules. block.rs is the crate's.
pub mod block;
pub mod common;

pub use block::{compute_block_layout, BlockContext};
