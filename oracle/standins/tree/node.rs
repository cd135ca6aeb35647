//! Stand-in: a node is its number in the page.
#[derive(Copy, Clone, PartialEq, Eq, Debug)]
pub struct NodeId(pub usize);
