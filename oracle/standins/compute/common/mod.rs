//! Stand-in: the list of modules. Both are the crate's.
pub mod alignment;
pub mod sizing_keyword;
