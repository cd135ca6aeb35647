//! Stand-in: the three types of length, each around a CompactLength.
use super::CompactLength;
use crate::style_helpers::{TaffyAuto, TaffyZero};
use crate::util::MaybeResolve;

#[derive(Copy, Clone, PartialEq, Debug)]
pub struct LengthPercentage(pub(crate) CompactLength);
#[derive(Copy, Clone, PartialEq, Debug)]
pub struct LengthPercentageAuto(pub(crate) CompactLength);
#[derive(Copy, Clone, PartialEq, Debug)]
pub struct Dimension(pub(crate) CompactLength);

// style/mod.rs exports these names; no file here uses them.
pub enum ExpandedLengthPercentage {}
pub enum ExpandedLengthPercentageAuto {}
pub enum ExpandedDimension {}

macro_rules! around_compact_length {
    ($($name:ident),*) => {$(
        impl $name {
            pub const fn from_raw(raw: CompactLength) -> Self { Self(raw) }
            pub const fn length(value: f32) -> Self { Self(CompactLength::length(value)) }
            pub const fn percent(value: f32) -> Self { Self(CompactLength::percent(value)) }
            pub const fn tag(self) -> usize { self.0.tag() }
            pub const fn value(self) -> f32 { self.0.value() }
        }
        impl TaffyZero for $name {
            const ZERO: Self = Self::length(0.0);
        }
    )*};
}
around_compact_length!(LengthPercentage, LengthPercentageAuto, Dimension);

impl TaffyAuto for LengthPercentageAuto {
    const AUTO: Self = Self(CompactLength::AUTO);
}
impl TaffyAuto for Dimension {
    const AUTO: Self = Self(CompactLength::AUTO);
}

impl LengthPercentageAuto {
    /// None if it is auto.
    pub fn resolve_to_option(self, basis: f32, calc: impl Fn(*const (), f32) -> f32) -> Option<f32> {
        self.maybe_resolve(Some(basis), calc)
    }
}

impl Dimension {
    pub const fn is_auto(self) -> bool {
        self.tag() == CompactLength::AUTO_TAG
    }
    pub const fn is_stretch(self) -> bool {
        self.tag() == CompactLength::STRETCH_TAG
    }
    pub const fn fit_content() -> Self {
        Self(CompactLength::FIT_CONTENT_KEYWORD)
    }
}
