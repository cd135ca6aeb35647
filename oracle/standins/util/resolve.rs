//! Stand-in: from lengths to pixels. A fraction with no basis gives nothing, as auto does; where a
//! number is needed, that counts as 0.
use crate::geometry::{Rect, Size};
use crate::style::{CompactLength, Dimension, LengthPercentage, LengthPercentageAuto};

pub trait MaybeResolve<In, Out> {
    fn maybe_resolve(self, context: In, calc: impl Fn(*const (), f32) -> f32) -> Out;
}

pub trait ResolveOrZero<In, Out> {
    fn resolve_or_zero(self, context: In, calc: impl Fn(*const (), f32) -> f32) -> Out;
}

fn resolve(length: CompactLength, basis: Option<f32>) -> Option<f32> {
    match length.tag() {
        CompactLength::LENGTH_TAG => Some(length.value()),
        CompactLength::PERCENT_TAG => basis.map(|basis| length.value() * basis),
        _ => None,
    }
}

macro_rules! lengths {
    ($($name:ty),*) => {$(
        impl MaybeResolve<Option<f32>, Option<f32>> for $name {
            fn maybe_resolve(self, basis: Option<f32>, _calc: impl Fn(*const (), f32) -> f32) -> Option<f32> {
                resolve(self.0, basis)
            }
        }
        impl ResolveOrZero<Option<f32>, f32> for $name {
            fn resolve_or_zero(self, basis: Option<f32>, _calc: impl Fn(*const (), f32) -> f32) -> f32 {
                resolve(self.0, basis).unwrap_or(0.0)
            }
        }
    )*};
}
lengths!(LengthPercentage, LengthPercentageAuto, Dimension);

impl<In, Out, T: MaybeResolve<In, Out>> MaybeResolve<Size<In>, Size<Out>> for Size<T> {
    fn maybe_resolve(self, context: Size<In>, calc: impl Fn(*const (), f32) -> f32) -> Size<Out> {
        Size {
            width: self.width.maybe_resolve(context.width, &calc),
            height: self.height.maybe_resolve(context.height, &calc),
        }
    }
}

/// All four sides are measured by the width.
impl<Out, T: ResolveOrZero<Option<f32>, Out>> ResolveOrZero<Option<f32>, Rect<Out>> for Rect<T> {
    fn resolve_or_zero(self, width: Option<f32>, calc: impl Fn(*const (), f32) -> f32) -> Rect<Out> {
        Rect {
            left: self.left.resolve_or_zero(width, &calc),
            right: self.right.resolve_or_zero(width, &calc),
            top: self.top.resolve_or_zero(width, &calc),
            bottom: self.bottom.resolve_or_zero(width, &calc),
        }
    }
}
