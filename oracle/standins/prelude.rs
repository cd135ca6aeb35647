//! Stand-in: the names that style/available_space.rs takes from here.
pub use crate::style_helpers::{FromLength, TaffyMaxContent, TaffyMinContent, TaffyZero};
