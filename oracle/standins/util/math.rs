//! Stand-in: arithmetic where an operand may be missing. If the left one is missing, so is the
//! result; if the right one is, the left one stays. A clamp takes the maximum first, then the
//! minimum.
use crate::geometry::Size;
use crate::style::AvailableSpace;
use crate::util::sys::{f32_max, f32_min};

pub trait MaybeMath<In, Out> {
    fn maybe_min(self, rhs: In) -> Out;
    fn maybe_max(self, rhs: In) -> Out;
    fn maybe_clamp(self, min: In, max: In) -> Out;
    fn maybe_add(self, rhs: In) -> Out;
    fn maybe_sub(self, rhs: In) -> Out;
}

impl MaybeMath<Option<f32>, f32> for f32 {
    fn maybe_min(self, rhs: Option<f32>) -> f32 {
        rhs.map_or(self, |rhs| f32_min(self, rhs))
    }
    fn maybe_max(self, rhs: Option<f32>) -> f32 {
        rhs.map_or(self, |rhs| f32_max(self, rhs))
    }
    fn maybe_clamp(self, min: Option<f32>, max: Option<f32>) -> f32 {
        self.maybe_min(max).maybe_max(min)
    }
    fn maybe_add(self, rhs: Option<f32>) -> f32 {
        rhs.map_or(self, |rhs| self + rhs)
    }
    fn maybe_sub(self, rhs: Option<f32>) -> f32 {
        rhs.map_or(self, |rhs| self - rhs)
    }
}

impl MaybeMath<Option<f32>, Option<f32>> for Option<f32> {
    fn maybe_min(self, rhs: Option<f32>) -> Option<f32> {
        self.map(|lhs| lhs.maybe_min(rhs))
    }
    fn maybe_max(self, rhs: Option<f32>) -> Option<f32> {
        self.map(|lhs| lhs.maybe_max(rhs))
    }
    fn maybe_clamp(self, min: Option<f32>, max: Option<f32>) -> Option<f32> {
        self.map(|lhs| lhs.maybe_clamp(min, max))
    }
    fn maybe_add(self, rhs: Option<f32>) -> Option<f32> {
        self.map(|lhs| lhs.maybe_add(rhs))
    }
    fn maybe_sub(self, rhs: Option<f32>) -> Option<f32> {
        self.map(|lhs| lhs.maybe_sub(rhs))
    }
}

impl MaybeMath<f32, Option<f32>> for Option<f32> {
    fn maybe_min(self, rhs: f32) -> Option<f32> {
        self.maybe_min(Some(rhs))
    }
    fn maybe_max(self, rhs: f32) -> Option<f32> {
        self.maybe_max(Some(rhs))
    }
    fn maybe_clamp(self, min: f32, max: f32) -> Option<f32> {
        self.maybe_clamp(Some(min), Some(max))
    }
    fn maybe_add(self, rhs: f32) -> Option<f32> {
        self.maybe_add(Some(rhs))
    }
    fn maybe_sub(self, rhs: f32) -> Option<f32> {
        self.maybe_sub(Some(rhs))
    }
}

/// Min-content and max-content have no number to add to, and stay what they are.
impl MaybeMath<f32, AvailableSpace> for AvailableSpace {
    fn maybe_min(self, rhs: f32) -> AvailableSpace {
        match self {
            AvailableSpace::Definite(lhs) => AvailableSpace::Definite(f32_min(lhs, rhs)),
            _ => AvailableSpace::Definite(rhs),
        }
    }
    fn maybe_max(self, rhs: f32) -> AvailableSpace {
        self.map_definite_value(|lhs| f32_max(lhs, rhs))
    }
    fn maybe_clamp(self, min: f32, max: f32) -> AvailableSpace {
        self.map_definite_value(|lhs| lhs.maybe_clamp(Some(min), Some(max)))
    }
    fn maybe_add(self, rhs: f32) -> AvailableSpace {
        self.map_definite_value(|lhs| lhs + rhs)
    }
    fn maybe_sub(self, rhs: f32) -> AvailableSpace {
        self.map_definite_value(|lhs| lhs - rhs)
    }
}

impl<In, Out, T: MaybeMath<In, Out>> MaybeMath<Size<In>, Size<Out>> for Size<T> {
    fn maybe_min(self, rhs: Size<In>) -> Size<Out> {
        Size { width: self.width.maybe_min(rhs.width), height: self.height.maybe_min(rhs.height) }
    }
    fn maybe_max(self, rhs: Size<In>) -> Size<Out> {
        Size { width: self.width.maybe_max(rhs.width), height: self.height.maybe_max(rhs.height) }
    }
    fn maybe_clamp(self, min: Size<In>, max: Size<In>) -> Size<Out> {
        Size {
            width: self.width.maybe_clamp(min.width, max.width),
            height: self.height.maybe_clamp(min.height, max.height),
        }
    }
    fn maybe_add(self, rhs: Size<In>) -> Size<Out> {
        Size { width: self.width.maybe_add(rhs.width), height: self.height.maybe_add(rhs.height) }
    }
    fn maybe_sub(self, rhs: Size<In>) -> Size<Out> {
        Size { width: self.width.maybe_sub(rhs.width), height: self.height.maybe_sub(rhs.height) }
    }
}
