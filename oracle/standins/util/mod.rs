//! Stand-in: the list of modules. sys.rs and debug.rs are the crate's. The crate's file lists two
//! more that are not at hand.
mod math;
mod resolve;
pub(crate) mod sys;
#[macro_use]
pub(crate) mod debug;

pub use math::MaybeMath;
pub use resolve::{MaybeResolve, ResolveOrZero};
