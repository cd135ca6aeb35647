//! Stand-in: a length is a tag and a number. The crate packs both into one word; nothing that is
//! compared depends on that.
#[derive(Copy, Clone, PartialEq, Debug)]
pub struct CompactLength {
    tag: usize,
    value: f32,
}

impl CompactLength {
    pub const AUTO_TAG: usize = 0;
    pub const LENGTH_TAG: usize = 1;
    pub const PERCENT_TAG: usize = 2;
    // The sizing keywords, which 01 leaves out.
    pub const MIN_CONTENT_TAG: usize = 3;
    pub const MAX_CONTENT_TAG: usize = 4;
    pub const FIT_CONTENT_PX_TAG: usize = 5;
    pub const FIT_CONTENT_PERCENT_TAG: usize = 6;
    pub const FIT_CONTENT_KEYWORD_TAG: usize = 7;
    pub const STRETCH_TAG: usize = 8;

    pub const AUTO: CompactLength = CompactLength { tag: Self::AUTO_TAG, value: 0.0 };
    pub const FIT_CONTENT_KEYWORD: CompactLength =
        CompactLength { tag: Self::FIT_CONTENT_KEYWORD_TAG, value: 0.0 };

    pub const fn length(value: f32) -> CompactLength {
        CompactLength { tag: Self::LENGTH_TAG, value }
    }
    /// `value` is the fraction: 0.5 is half.
    pub const fn percent(value: f32) -> CompactLength {
        CompactLength { tag: Self::PERCENT_TAG, value }
    }
    pub const fn tag(self) -> usize {
        self.tag
    }
    pub const fn value(self) -> f32 {
        self.value
    }
}
