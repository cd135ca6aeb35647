//! Stand-in: the list of modules, all of them stand-ins. The crate's file lists more than is used.
mod layout;
mod node;
mod traits;

pub use layout::{
    AxisStaticPosition, Baselines, CollapsibleMarginSet, Layout, LayoutInput, LayoutOutput, OofCandidate,
    OofCandidates, OofPositioningArea, RequestedAxis, RunMode, SizingMode,
};
pub use node::NodeId;
pub(crate) use traits::LayoutPartialTreeExt;
pub use traits::{LayoutBlockContainer, LayoutPartialTree, TraversePartialTree};
