//! Steps J and K: the children one below the other.
use super::sizes::{across, asked_height, down, Item, Numbers, Sides};
use super::{Answer, Reading};
use crate::arithmetic::{clamp, larger, Set};
use crate::page::{field, Ask, Available, Overflow, Position, Question, BOTTOM, LEFT, RIGHT, TOP};
use crate::rules::Rule;

/// A container in step J: what does not change from child to child.
pub(super) struct Frame {
    pub ask: Ask,
    pub width: f32,
    pub inset: Sides,
    pub inner: f32,
    /// The height basis that children are asked with, and that their offsets have.
    pub basis: Option<f32>,
    pub rtl: bool,
    pub own_start: bool,
}

/// A container in step J: what each child changes.
pub(super) struct Stack {
    pub y: f32,
    pub strut: Set,
    pub top: Set,
    pub at_top: bool,
    pub all_through: bool,
    /// The first baseline so far.
    pub baseline: Option<f32>,
    /// Where block.rs has the line of a box out of the flow (LineAfterThrough).
    pub rust_line: f32,
}

/// A child's margins in step J.
struct Margins {
    /// None is auto.
    styled: [Option<f32>; 4],
    /// An auto margin counts 0.
    plain: Sides,
}

impl Reading<'_> {
    pub(super) fn inner_width(&self, width: f32, inset: Sides) -> f32 {
        let inner = width - across(inset);
        if self.on(Rule::InnerRaised) {
            larger(0.0, inner)
        } else {
            inner
        }
    }

    /// Step E's basis. In its place block.rs may take the height that the style says.
    pub(super) fn height_basis(&self, basis: Option<f32>, own: &Numbers, inset: Sides) -> Option<f32> {
        if basis.is_some() || !self.on(Rule::StyledHeightBasis) {
            return basis;
        }
        own.size.height.map(|height| clamp(height, own.min.height, None) - down(inset))
    }

    pub(super) fn stack(&mut self, frame: &Frame, items: &[Item]) -> Stack {
        let top = frame.inset[TOP];
        let mut stack = Stack {
            y: top,
            strut: Set::EMPTY,
            top: Set::EMPTY,
            at_top: true,
            all_through: true,
            baseline: None,
            rust_line: top,
        };
        for item in items {
            if self.page.out_of_flow(item.node) {
                self.note_out_of_flow(frame, &stack, item);
            } else {
                self.stack_child(frame, &mut stack, item);
            }
        }
        stack
    }

    fn stack_child(&mut self, frame: &Frame, stack: &mut Stack, item: &Item) {
        let margins = self.margins(item.node, frame.inner);
        let stretch = self.stretch_width(frame, &margins);
        let answer = self.node(item.node, &self.child_question(frame, item, stretch));
        let top = answer.top.join(Set::of(margins.plain[TOP]));
        let bottom = answer.bottom.join(Set::of(margins.plain[BOTTOM]));
        let gap = if stack.at_top && frame.own_start { 0.0 } else { stack.strut.join(top).sum() };
        let (move_x, move_y) = self.offset(item.node, frame);
        let y = (stack.y + gap) + move_y;
        if frame.ask == Ask::Layout {
            let x = self.place_x(item.node, frame, &margins, answer.width, stretch, move_x);
            self.note_place(item, x, y);
        }
        if stack.baseline.is_none() {
            stack.baseline = self.line_of(item.node, &answer, y, move_y);
        }
        if answer.through {
            stack.rust_line = (stack.y + answer.height) + gap;
            stack.strut = stack.strut.join(top).join(bottom);
            if stack.at_top {
                stack.top = stack.top.join(top).join(bottom);
            }
            return;
        }
        if stack.at_top {
            stack.top = stack.top.join(top);
        }
        stack.y = if self.on(Rule::NextAfterRelative) {
            (y - move_y) + answer.height
        } else {
            (stack.y + gap) + answer.height
        };
        stack.strut = bottom;
        stack.at_top = false;
        stack.all_through = false;
        stack.rust_line = stack.y + stack.strut.sum();
    }

    /// The baseline of a child that was moved by that much to y.
    fn line_of(&self, node: usize, answer: &Answer, y: f32, moved: f32) -> Option<f32> {
        let scrolls = matches!(self.page.overflow_y(node), Overflow::Hidden | Overflow::Scroll);
        let line = if scrolls && self.on(Rule::ScrolledLine) {
            Some(answer.baseline.unwrap_or(answer.height).min(answer.height).max(0.0))
        } else {
            answer.baseline
        };
        let y = if self.on(Rule::LineUnmoved) { y - moved } else { y };
        line.map(|line| y + line)
    }

    fn margins(&self, node: usize, inner: f32) -> Margins {
        let styled =
            [TOP, RIGHT, BOTTOM, LEFT].map(|side| self.length(node, field::MARGIN + side, Some(inner)));
        Margins { styled, plain: styled.map(|margin| margin.unwrap_or(0.0)) }
    }

    /// The width of a child that has none of its own.
    fn stretch_width(&self, frame: &Frame, margins: &Margins) -> f32 {
        let stretch = frame.inner - across(margins.plain);
        if self.on(Rule::StretchRaised) {
            larger(0.0, stretch)
        } else {
            stretch
        }
    }

    fn child_question(&self, frame: &Frame, item: &Item, stretch: f32) -> Question {
        let numbers = &item.numbers;
        let mut width = clamp(numbers.size.width.unwrap_or(stretch), numbers.min.width, numbers.max.width);
        let mut height = asked_height(numbers);
        if !self.on(Rule::AskedNotRaised) {
            width = larger(width, numbers.least_width);
            height = height.map(|height| larger(height, numbers.least_height));
        }
        let same = self.in_same_context(item.node);
        Question {
            ask: if self.on(Rule::ChildrenAskedSizes) { frame.ask } else { Ask::Layout },
            width: Some(width),
            height,
            definite: true,
            parent: Some(frame.inner),
            basis: frame.basis,
            available: Available::Definite(stretch),
            start: same,
            end: same,
        }
    }

    /// How far a relative child is moved.
    fn offset(&self, node: usize, frame: &Frame) -> (f32, f32) {
        if self.page.position(node) != Position::Relative {
            return (0.0, 0.0);
        }
        let side = |side, basis| self.length(node, field::INSET + side, basis);
        let (left, right) =
            (side(LEFT, Some(frame.inner)), side(RIGHT, Some(frame.inner)).map(|right| -right));
        let x = if frame.rtl { right.or(left) } else { left.or(right) };
        let y = side(TOP, frame.basis).or(side(BOTTOM, frame.basis).map(|bottom| -bottom));
        (x.unwrap_or(0.0), y.unwrap_or(0.0))
    }

    fn place_x(
        &self,
        node: usize,
        frame: &Frame,
        margins: &Margins,
        width: f32,
        stretch: f32,
        offset: f32,
    ) -> f32 {
        let (left, right) = self.side_margins(frame, margins, width, stretch);
        let inset = frame.inset;
        let same = self.in_same_context(node);
        if !frame.rtl {
            if same && self.on(Rule::XLtr) {
                (inset[LEFT] + offset) + left
            } else {
                (inset[LEFT] + left) + offset
            }
        } else if same && self.on(Rule::XRtl) {
            (((frame.width - inset[RIGHT]) - width) - right) + offset
        } else if !same && self.on(Rule::XRtlContext) {
            (((inset[LEFT] + frame.inner) - width) - right) + offset
        } else {
            (((frame.width - inset[RIGHT]) - right) - width) + offset
        }
    }

    /// Left and right margin, where auto ones share what is free.
    fn side_margins(&self, frame: &Frame, margins: &Margins, width: f32, stretch: f32) -> (f32, f32) {
        let free = if self.on(Rule::FreeSpace) {
            stretch - width
        } else {
            (frame.inner - width) - across(margins.plain)
        };
        let free = larger(0.0, free);
        let (left, right) = (margins.styled[LEFT], margins.styled[RIGHT]);
        let share = if left.is_none() && right.is_none() { free / 2.0 } else { free };
        (left.unwrap_or(share), right.unwrap_or(share))
    }

    /// Step K.
    pub(super) fn content_height(&self, frame: &Frame, stack: &Stack, own_end: bool) -> f32 {
        let left_by_top = stack.at_top && frame.own_start && !self.on(Rule::OpenMarginsAtTop);
        let extra = if own_end || left_by_top { 0.0 } else { stack.strut.sum() };
        let bottom = frame.inset[BOTTOM];
        let end =
            if self.on(Rule::ContentSum) { stack.y + (bottom + extra) } else { (stack.y + extra) + bottom };
        larger(0.0, end)
    }
}
