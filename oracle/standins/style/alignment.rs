//! Stand-in: the words for alignment. Pages of 01 use align-content alone.
use crate::style::Direction;

#[derive(Copy, Clone, PartialEq, Eq, Debug)]
pub enum AlignmentSafety {
    Unsafe,
    Safe,
}

#[derive(Copy, Clone, PartialEq, Eq, Debug)]
pub enum AlignItemsKeyword {
    Normal,
    Start,
    End,
    FlexStart,
    FlexEnd,
    SelfStart,
    SelfEnd,
    Center,
    Baseline,
    Stretch,
}

#[derive(Copy, Clone, PartialEq, Eq, Debug)]
pub struct AlignItems {
    pub keyword: AlignItemsKeyword,
    pub safety: AlignmentSafety,
}

impl AlignItems {
    pub const NORMAL: AlignItems =
        AlignItems { keyword: AlignItemsKeyword::Normal, safety: AlignmentSafety::Unsafe };

    /// `self-start` and `self-end` would turn into `start` and `end` here. Every page says `normal`.
    pub fn resolve_self_relative(
        self,
        _own: Direction,
        _container: Direction,
        _inline_axis: bool,
    ) -> AlignItems {
        assert!(self == AlignItems::NORMAL, "01 has no justify words");
        self
    }
}

pub type AlignSelf = AlignItems;
pub type JustifyItems = AlignItems;
pub type JustifySelf = AlignItems;

#[derive(Copy, Clone, PartialEq, Eq, Debug)]
pub enum AlignContentKeyword {
    Normal,
    Start,
    End,
    FlexStart,
    FlexEnd,
    Center,
    Stretch,
    SpaceBetween,
    SpaceEvenly,
    SpaceAround,
}

#[derive(Copy, Clone, PartialEq, Eq, Debug)]
pub struct AlignContent {
    pub keyword: AlignContentKeyword,
    pub safety: AlignmentSafety,
}

impl AlignContent {
    pub const NORMAL: AlignContent = AlignContent::plain(AlignContentKeyword::Normal);

    /// The keyword without `safe` before it.
    pub const fn plain(keyword: AlignContentKeyword) -> AlignContent {
        AlignContent { keyword, safety: AlignmentSafety::Unsafe }
    }
}

pub type JustifyContent = AlignContent;
