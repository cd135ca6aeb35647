//! Refusal 3 of one node. Random pages give no cause for 1, 2 and 4 to 7.
use crate::page::{field, Kind, Page, AUTO, FRACTION};

pub(super) fn bad_style(page: &Page, node: usize) -> bool {
    bad_codes(page, node) || ratio_beside_fraction(page, node)
}

/// A ratio that is not 0 (a NaN is not, -0 is) beside a fraction of a height.
fn ratio_beside_fraction(page: &Page, node: usize) -> bool {
    let heights = [field::SIZE + 1, field::MIN + 1, field::MAX + 1];
    page.ratio(node).is_some() && heights.iter().any(|field| page.unit(node, *field) == FRACTION)
}

/// A word beyond the four or beside bits 10-11, safe beside neither center nor end, a baseline on a non-leaf, an
/// unused bit.
fn bad_align(style: u32) -> bool {
    let (plain, word, safe) = (style >> 10 & 3, style >> 13 & 7, style >> 17 & 1 == 1);
    word > 4 || word != 0 && plain != 0 || safe && plain < 2 || style >> 16 & 1 == 1 && style & 3 != 1 || style >> 18 != 0
}

/// A code that means nothing, an unused bit, a unit that the field may not have, a root that is no block.
fn bad_codes(page: &Page, node: usize) -> bool {
    let [style, low, high] = page.style_words(node);
    style & 3 == 3
        || style >> 4 & 3 == 3
        || bad_align(style)
        || low >> 28 != 0
        || high >> 16 != 0
        || (0..field::UNITS).any(|field| page.unit(node, field) == 3)
        || (field::PADDING..field::INSET).any(|field| page.unit(node, field) == AUTO)
        || node == 0 && page.kind(node) != Kind::Block
}
