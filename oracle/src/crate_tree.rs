//! The crate's side: a page as the tree that block.rs walks, and the rows that come out of it.
use crate::arithmetic::clamp;
use crate::outcome::{Candidate, Outcome, Row, LAID, LINED, OUT, THROUGH};
use crate::page::{self, field, Ask, Available, Kind, Page};
use taffy_block::compute::{compute_block_layout, BlockContext};
use taffy_block::geometry::{Line, Point, Rect, Size};
use taffy_block::style::{
    AlignContent, AlignContentKeyword, AlignmentSafety, AvailableSpace, BoxSizing, CompactLength, Contain,
    Dimension, Direction, Display, LengthPercentage, LengthPercentageAuto, Overflow, Position, Style,
};
use taffy_block::tree::{
    Baselines, Layout, LayoutBlockContainer, LayoutInput, LayoutOutput, LayoutPartialTree, NodeId, OofCandidate,
    RequestedAxis, RunMode, SizingMode, TraversePartialTree,
};

/// What block.rs makes of the page.
pub fn answer(page: &Page) -> Outcome {
    let mut tree = Tree::new(page);
    let output = tree.node(NodeId(0), root_input(page), None);
    if page.question.ask != Ask::Layout {
        return Outcome::Size(output.size.width, output.size.height);
    }
    // A parent stores its children's sizes; nobody stores the root's.
    tree.rows[0].numbers[2] = output.size.width;
    tree.rows[0].numbers[3] = output.size.height;
    let candidates = output.oof_candidates.0.iter().map(candidate).collect();
    Outcome::Laid { rows: tree.rows, candidates }
}

struct Tree<'a> {
    page: &'a Page,
    styles: Vec<Style>,
    children: Vec<Vec<NodeId>>,
    parents: Vec<usize>,
    rows: Vec<Row>,
}

impl<'a> Tree<'a> {
    fn new(page: &'a Page) -> Tree<'a> {
        let nodes = 0..page.nodes();
        Tree {
            page,
            styles: nodes.clone().map(|node| style(page, node)).collect(),
            children: nodes.map(|node| page.children(node).map(NodeId).collect()).collect(),
            parents: page.parents(),
            rows: vec![Row::default(); page.nodes()],
        }
    }

    fn node(
        &mut self,
        id: NodeId,
        input: LayoutInput,
        context: Option<&mut BlockContext<'_>>,
    ) -> LayoutOutput {
        let output = match self.page.kind(id.0) {
            Kind::Hidden => return LayoutOutput::from_outer_size(Size::ZERO),
            Kind::Leaf => leaf(self.page, id.0, input),
            Kind::Block => compute_block_layout(self, id, input, context),
        };
        if input.run_mode == RunMode::PerformLayout {
            self.note_layout(id.0, &output);
        }
        output
    }

    fn note_layout(&mut self, node: usize, output: &LayoutOutput) {
        let row = &mut self.rows[node];
        row.numbers[4] = output.top_margin.positive;
        row.numbers[5] = output.top_margin.negative;
        row.numbers[6] = output.bottom_margin.positive;
        row.numbers[7] = output.bottom_margin.negative;
        row.bits = LAID | if output.margins_can_collapse_through { THROUGH } else { 0 };
        if let Some(line) = output.baselines.first {
            row.numbers[15] = line;
            row.bits |= LINED;
        }
        for entry in &output.oof_candidates.0 {
            // A container's own children are in its list as they stand in it, before any is moved.
            if self.parents[entry.node.0] == node {
                self.rows[entry.node.0] = out_of_flow_row(entry);
            }
        }
    }
}

/// 01's leaf: the sizes that it is asked, else those of its table. The crate's own is not at hand.
fn leaf(page: &Page, node: usize, input: LayoutInput) -> LayoutOutput {
    let table = |field| page.number(node, field);
    let (min, max) = (table(field::LEAF_MIN), table(field::LEAF_MAX));
    let width = input.known_dimensions.width.unwrap_or(match input.available_space.width {
        AvailableSpace::MinContent => min,
        AvailableSpace::MaxContent => max,
        AvailableSpace::Definite(width) => clamp(width, Some(min), Some(max)),
    });
    let height = input.known_dimensions.height.unwrap_or(table(field::LEAF_HEIGHT));
    let baselines = Baselines::from_first(page.baseline(node));
    LayoutOutput { baselines, ..LayoutOutput::from_outer_size(Size { width, height }) }
}

fn root_input(page: &Page) -> LayoutInput {
    let question = &page.question;
    let width = match question.available {
        Available::Definite(width) => AvailableSpace::Definite(width),
        Available::MinContent => AvailableSpace::MinContent,
        Available::MaxContent => AvailableSpace::MaxContent,
    };
    LayoutInput {
        run_mode: if question.ask == Ask::Layout { RunMode::PerformLayout } else { RunMode::ComputeSize },
        sizing_mode: SizingMode::InherentSize,
        axis: if question.ask == Ask::Width { RequestedAxis::Horizontal } else { RequestedAxis::Both },
        known_dimensions: Size { width: question.width, height: question.height },
        // The flag is about an asked height alone; in block.rs it would be about a styled one too.
        known_dimensions_are_definite: Size {
            width: true,
            height: question.definite || question.height.is_none(),
        },
        parent_size: Size { width: question.parent, height: None },
        available_space: Size { width, height: AvailableSpace::MaxContent },
        vertical_margins_are_collapsible: Line { start: question.start, end: question.end },
    }
}

fn candidate(entry: &OofCandidate) -> Candidate {
    let place = entry.static_position;
    Candidate {
        node: entry.node.0 as u32,
        order: entry.order,
        start: place.x.area.start,
        end: place.x.area.end,
        line: place.y.area.start,
    }
}

fn out_of_flow_row(entry: &OofCandidate) -> Row {
    let place = candidate(entry);
    let mut row = Row { order: place.order, bits: OUT, ..Row::default() };
    row.numbers[..3].copy_from_slice(&[place.start, place.line, place.end]);
    row
}

/// The crate is told that a leaf is no block: it is in no context with its siblings.
fn style(page: &Page, node: usize) -> Style {
    let raw = |field| match page.unit(node, field) {
        page::AUTO => CompactLength::AUTO,
        page::PIXELS => CompactLength::length(page.number(node, field)),
        _ => CompactLength::percent(page.number(node, field)),
    };
    let size = |field| Dimension::from_raw(raw(field));
    let length = |field| LengthPercentage::from_raw(raw(field));
    let or_auto = |field| LengthPercentageAuto::from_raw(raw(field));
    Style {
        display: match page.kind(node) {
            Kind::Block => Display::Block,
            Kind::Leaf => Display::FlowRoot,
            Kind::Hidden => Display::None,
        },
        box_sizing: if page.content_box(node) { BoxSizing::ContentBox } else { BoxSizing::BorderBox },
        direction: if page.rtl(node) { Direction::Rtl } else { Direction::Ltr },
        position: match page.position(node) {
            page::Position::Plain => Position::Static,
            page::Position::Relative => Position::Relative,
            page::Position::OutOfFlow => Position::Absolute,
        },
        overflow: Point { x: overflow(page.overflow_x(node)), y: overflow(page.overflow_y(node)) },
        align_content: AlignContent {
            keyword: match page.align(node) {
                page::Align::Normal => AlignContentKeyword::Normal,
                page::Align::Start => AlignContentKeyword::Start,
                page::Align::Center => AlignContentKeyword::Center,
                page::Align::End => AlignContentKeyword::End,
                page::Align::SpaceBetween => AlignContentKeyword::SpaceBetween,
                page::Align::SpaceAround => AlignContentKeyword::SpaceAround,
                page::Align::SpaceEvenly => AlignContentKeyword::SpaceEvenly,
                page::Align::Stretch => AlignContentKeyword::Stretch,
            },
            safety: if page.safe(node) { AlignmentSafety::Safe } else { AlignmentSafety::Unsafe },
        },
        contain: if page.contained(node) { Contain::LAYOUT } else { Contain::NONE },
        size: Size { width: size(field::SIZE), height: size(field::SIZE + 1) },
        min_size: Size { width: or_auto(field::MIN), height: or_auto(field::MIN + 1) },
        max_size: Size { width: or_auto(field::MAX), height: or_auto(field::MAX + 1) },
        margin: sides(field::MARGIN, or_auto),
        padding: sides(field::PADDING, length),
        border: sides(field::BORDER, length),
        inset: sides(field::INSET, or_auto),
        aspect_ratio: page.ratio(node),
        scrollbar_width: page.number(node, field::SCROLLBAR),
        ..Style::DEFAULT
    }
}

fn sides<T>(field: usize, length: impl Fn(usize) -> T) -> Rect<T> {
    Rect {
        top: length(field + page::TOP),
        right: length(field + page::RIGHT),
        bottom: length(field + page::BOTTOM),
        left: length(field + page::LEFT),
    }
}

fn overflow(overflow: page::Overflow) -> Overflow {
    match overflow {
        page::Overflow::Visible => Overflow::Visible,
        page::Overflow::Clip => Overflow::Clip,
        page::Overflow::Hidden => Overflow::Hidden,
        page::Overflow::Scroll => Overflow::Scroll,
    }
}

impl TraversePartialTree for Tree<'_> {
    type ChildIter<'b>
        = std::iter::Copied<std::slice::Iter<'b, NodeId>>
    where
        Self: 'b;
    fn child_ids(&self, parent: NodeId) -> Self::ChildIter<'_> {
        self.children[parent.0].iter().copied()
    }
    fn child_count(&self, parent: NodeId) -> usize {
        self.children[parent.0].len()
    }
    fn get_child_id(&self, parent: NodeId, index: usize) -> NodeId {
        self.children[parent.0][index]
    }
}

impl LayoutPartialTree for Tree<'_> {
    fn set_unrounded_layout(&mut self, node: NodeId, layout: &Layout) {
        let row = &mut self.rows[node.0];
        let (place, size) = (layout.location, layout.size);
        row.numbers[..4].copy_from_slice(&[place.x, place.y, size.width, size.height]);
        row.order = layout.order;
    }
    fn compute_child_layout(&mut self, node: NodeId, input: LayoutInput) -> LayoutOutput {
        self.node(node, input, None)
    }
}

impl LayoutBlockContainer for Tree<'_> {
    type BlockContainerStyle<'b>
        = &'b Style
    where
        Self: 'b;
    type BlockItemStyle<'b>
        = &'b Style
    where
        Self: 'b;
    fn get_block_container_style(&self, node: NodeId) -> &Style {
        &self.styles[node.0]
    }
    fn get_block_child_style(&self, node: NodeId) -> &Style {
        &self.styles[node.0]
    }
    fn compute_block_child_layout(
        &mut self,
        node: NodeId,
        input: LayoutInput,
        context: Option<&mut BlockContext<'_>>,
    ) -> LayoutOutput {
        self.node(node, input, context)
    }
}
