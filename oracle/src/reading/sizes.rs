//! Steps A, B, D and E: a node's own numbers, and those of its children.
use super::Reading;
use crate::arithmetic::{clamp, larger};
use crate::page::{field, Kind, Overflow, Question, AUTO, BOTTOM, LEFT, PIXELS, RIGHT, TOP};

/// Top, right, bottom, left.
pub(super) type Sides = [f32; 4];

pub(super) fn across(sides: Sides) -> f32 {
    sides[LEFT] + sides[RIGHT]
}

pub(super) fn down(sides: Sides) -> f32 {
    sides[TOP] + sides[BOTTOM]
}

#[derive(Copy, Clone)]
pub(super) struct Pair {
    pub width: Option<f32>,
    pub height: Option<f32>,
}

/// A node's own numbers by some basis (step A; for a child step E).
pub(super) struct Numbers {
    pub padding: Sides,
    pub border: Sides,
    /// Padding and border together, in each axis.
    pub least_width: f32,
    pub least_height: f32,
    pub size: Pair,
    pub min: Pair,
    pub max: Pair,
}

/// A shown child with its numbers of step E.
pub(super) struct Item {
    pub node: usize,
    pub order: u32,
    pub numbers: Numbers,
}

impl Reading<'_> {
    pub(super) fn length(&self, node: usize, field: usize, basis: Option<f32>) -> Option<f32> {
        let number = self.page.number(node, field);
        match self.page.unit(node, field) {
            AUTO => None,
            PIXELS => Some(number),
            _ => basis.map(|basis| number * basis),
        }
    }

    pub(super) fn sides(&self, node: usize, field: usize, basis: Option<f32>) -> Sides {
        [TOP, RIGHT, BOTTOM, LEFT].map(|side| self.length(node, field + side, basis).unwrap_or(0.0))
    }

    pub(super) fn numbers(&self, node: usize, basis: Pair) -> Numbers {
        let padding = self.sides(node, field::PADDING, basis.width);
        let border = self.sides(node, field::BORDER, basis.width);
        let both = sum(padding, border);
        let (least_width, least_height) = (across(both), down(both));
        let pair = |field| {
            let styled = Pair {
                width: self.length(node, field, basis.width),
                height: self.length(node, field + 1, basis.height),
            };
            let pair = with_ratio(styled, self.page.ratio(node));
            if self.page.content_box(node) {
                Pair {
                    width: pair.width.map(|w| w + least_width),
                    height: pair.height.map(|h| h + least_height),
                }
            } else {
                pair
            }
        };
        let (size, min, max) = (pair(field::SIZE), pair(field::MIN), pair(field::MAX));
        Numbers { padding, border, least_width, least_height, size, min, max }
    }

    /// Step D.
    pub(super) fn filled_by_ratio(&self, node: usize, known: Pair, own: &Numbers) -> Pair {
        let filled = with_ratio(known, self.page.ratio(node));
        Pair {
            width: known.width.or(filled.width.map(|width| clamp(width, own.min.width, own.max.width))),
            height: known
                .height
                .or(filled.height.map(|height| clamp(height, own.min.height, own.max.height))),
        }
    }

    /// Step E: padding and border with room for scrollbars.
    pub(super) fn insets(&self, node: usize, own: &Numbers) -> Sides {
        let bar = |overflow| {
            if overflow == Overflow::Scroll {
                self.page.number(node, field::SCROLLBAR)
            } else {
                0.0
            }
        };
        let mut inset = sum(own.padding, own.border);
        inset[if self.page.rtl(node) { LEFT } else { RIGHT }] += bar(self.page.overflow_y(node));
        inset[BOTTOM] += bar(self.page.overflow_x(node));
        inset
    }

    pub(super) fn items(&self, node: usize, basis: Pair) -> Vec<Item> {
        let shown = self.page.children(node).filter(|child| self.page.kind(*child) != Kind::Hidden);
        shown.zip(0..).map(|(node, order)| Item { node, order, numbers: self.numbers(node, basis) }).collect()
    }
}

fn sum(padding: Sides, border: Sides) -> Sides {
    [TOP, RIGHT, BOTTOM, LEFT].map(|side| padding[side] + border[side])
}

/// The ratio fills one missing axis.
fn with_ratio(pair: Pair, ratio: Option<f32>) -> Pair {
    match (pair.width, pair.height, ratio) {
        (Some(width), None, Some(ratio)) => Pair { height: Some(width / ratio), ..pair },
        (None, Some(height), Some(ratio)) => Pair { width: Some(height * ratio), ..pair },
        _ => pair,
    }
}

/// Step B.
pub(super) fn known_sizes(question: &Question, own: &Numbers) -> Pair {
    let axis = |asked: Option<f32>, size: Option<f32>, min: Option<f32>, max: Option<f32>, least: f32| {
        let decided = min.filter(|min| max.is_some_and(|max| max <= *min));
        asked.or(decided).or(size.map(|size| clamp(size, min, max))).map(|size| larger(size, least))
    };
    Pair {
        width: axis(question.width, own.size.width, own.min.width, own.max.width, own.least_width),
        height: axis(question.height, own.size.height, own.min.height, own.max.height, own.least_height),
    }
}

/// A known height is definite, but for one that the question asks and does not call so.
pub(super) fn definite_height(question: &Question, known: Pair) -> Option<f32> {
    known.height.filter(|_| question.height.is_none() || question.definite)
}

/// A child is asked a height only if it has one.
pub(super) fn asked_height(numbers: &Numbers) -> Option<f32> {
    numbers.size.height.map(|height| clamp(height, numbers.min.height, numbers.max.height))
}
