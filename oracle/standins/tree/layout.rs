//! Stand-in: the question to a node, its answer, margin sets, and candidates for boxes out of the
//! flow. Margin sets and the moving of candidates are the two things here that compute.
use crate::geometry::{AbsoluteAxis, Line, Point, Rect, Size};
use crate::style::{AlignItems, AvailableSpace, Position};
use crate::tree::NodeId;
use crate::util::sys::{f32_max, f32_min};

#[derive(Copy, Clone, PartialEq, Eq, Debug)]
pub enum RunMode {
    PerformLayout,
    ComputeSize,
    PerformHiddenLayout,
}

#[derive(Copy, Clone, PartialEq, Eq, Debug)]
pub enum SizingMode {
    ContentSize,
    InherentSize,
}

#[derive(Copy, Clone, PartialEq, Eq, Debug)]
pub enum RequestedAxis {
    Horizontal,
    Vertical,
    Both,
}

impl From<AbsoluteAxis> for RequestedAxis {
    fn from(axis: AbsoluteAxis) -> Self {
        match axis {
            AbsoluteAxis::Horizontal => RequestedAxis::Horizontal,
            AbsoluteAxis::Vertical => RequestedAxis::Vertical,
        }
    }
}

/// The largest positive and the smallest negative of some margins, 0 where there is none.
#[derive(Copy, Clone, PartialEq, Debug)]
pub struct CollapsibleMarginSet {
    pub positive: f32,
    pub negative: f32,
}

impl CollapsibleMarginSet {
    pub const ZERO: Self = Self { positive: 0.0, negative: 0.0 };

    pub fn from_margin(margin: f32) -> Self {
        Self::ZERO.collapse_with_margin(margin)
    }
    pub fn collapse_with_margin(self, margin: f32) -> Self {
        Self { positive: f32_max(self.positive, margin), negative: f32_min(self.negative, margin) }
    }
    pub fn collapse_with_set(self, other: Self) -> Self {
        Self {
            positive: f32_max(self.positive, other.positive),
            negative: f32_min(self.negative, other.negative),
        }
    }
    pub fn resolve(self) -> f32 {
        self.positive + self.negative
    }
}

/// The first baseline alone: blocks have no other.
#[derive(Copy, Clone, PartialEq, Debug)]
pub struct Baselines {
    pub first: Option<f32>,
}

impl Baselines {
    pub const NONE: Self = Self { first: None };
    pub fn from_first(first: Option<f32>) -> Self {
        Self { first }
    }
}

#[derive(Copy, Clone, PartialEq, Debug)]
pub struct LayoutInput {
    pub run_mode: RunMode,
    pub sizing_mode: SizingMode,
    pub axis: RequestedAxis,
    pub known_dimensions: Size<Option<f32>>,
    pub known_dimensions_are_definite: Size<bool>,
    pub parent_size: Size<Option<f32>>,
    pub available_space: Size<AvailableSpace>,
    pub vertical_margins_are_collapsible: Line<bool>,
}

#[derive(Clone, Debug)]
pub struct LayoutOutput {
    pub size: Size<f32>,
    pub baselines: Baselines,
    pub top_margin: CollapsibleMarginSet,
    pub bottom_margin: CollapsibleMarginSet,
    pub margins_can_collapse_through: bool,
    pub oof_candidates: OofCandidates,
    pub oof_positioning_area: Option<OofPositioningArea>,
}

impl LayoutOutput {
    /// A size and nothing else: empty sets, not through, no candidates.
    pub fn from_outer_size(size: Size<f32>) -> Self {
        Self {
            size,
            baselines: Baselines::NONE,
            top_margin: CollapsibleMarginSet::ZERO,
            bottom_margin: CollapsibleMarginSet::ZERO,
            margins_can_collapse_through: false,
            oof_candidates: OofCandidates::NONE,
            oof_positioning_area: None,
        }
    }
}

#[derive(Copy, Clone, PartialEq, Debug)]
pub struct Layout {
    pub order: u32,
    pub location: Point<f32>,
    pub size: Size<f32>,
    pub scrollbar_size: Size<f32>,
    pub border: Rect<f32>,
    pub padding: Rect<f32>,
    pub margin: Rect<f32>,
}

impl Layout {
    pub fn with_order(order: u32) -> Self {
        Self {
            order,
            location: Point::ZERO,
            size: Size::ZERO,
            scrollbar_size: Size::ZERO,
            border: Rect::ZERO,
            padding: Rect::ZERO,
            margin: Rect::ZERO,
        }
    }
}

/// Where a box out of the flow would stand, in one axis.
#[derive(Copy, Clone, PartialEq, Debug)]
pub struct AxisStaticPosition {
    pub area: Line<f32>,
}

impl AxisStaticPosition {
    /// The alignment is normal on every page, so the area alone is kept.
    pub fn from_alignment(_alignment: AlignItems, area: Line<f32>, _reversed: bool) -> Self {
        Self { area }
    }
}

#[derive(Copy, Clone, PartialEq, Debug)]
pub struct OofCandidate {
    pub node: NodeId,
    pub order: u32,
    pub position: Position,
    pub static_position: Point<AxisStaticPosition>,
}

#[derive(Clone, Debug)]
pub struct OofCandidates(pub Vec<OofCandidate>);

impl OofCandidates {
    pub const NONE: Self = Self(Vec::new());
    pub fn new() -> Self {
        Self::NONE
    }
    pub fn is_empty(&self) -> bool {
        self.0.is_empty()
    }
    pub fn push(&mut self, candidate: OofCandidate) {
        self.0.push(candidate)
    }
    pub fn append(&mut self, other: &mut OofCandidates) {
        self.0.append(&mut other.0)
    }
    pub fn take(&mut self) -> OofCandidates {
        core::mem::replace(self, Self::NONE)
    }
    /// From places in a box to places in its parent.
    pub fn translate(&mut self, location: Point<f32>) {
        for candidate in &mut self.0 {
            let position = &mut candidate.static_position;
            position.x.area = position.x.area.map(|x| x + location.x);
            position.y.area = position.y.area.map(|y| y + location.y);
        }
    }
}

#[derive(Copy, Clone, PartialEq, Debug)]
pub struct OofPositioningArea {
    pub size: Size<f32>,
    pub offset: Point<f32>,
}
