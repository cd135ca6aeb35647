//! Stand-in: what block.rs asks of a tree, and the three questions that it puts to a child.
use crate::compute::BlockContext;
use crate::geometry::{AbsoluteAxis, Line, Size};
use crate::style::{AvailableSpace, BlockContainerStyle, BlockItemStyle};
use crate::tree::{Layout, LayoutInput, LayoutOutput, NodeId, RequestedAxis, RunMode, SizingMode};

pub trait TraversePartialTree {
    type ChildIter<'a>: Iterator<Item = NodeId>
    where
        Self: 'a;
    fn child_ids(&self, parent: NodeId) -> Self::ChildIter<'_>;
    fn child_count(&self, parent: NodeId) -> usize;
    fn get_child_id(&self, parent: NodeId, index: usize) -> NodeId;
}

pub trait LayoutPartialTree: TraversePartialTree {
    /// Pages of 01 have no calc() lengths.
    fn calc(&self, _value: *const (), _basis: f32) -> f32 {
        unreachable!("01 has no calc")
    }
    fn set_unrounded_layout(&mut self, node: NodeId, layout: &Layout);
    fn compute_child_layout(&mut self, node: NodeId, inputs: LayoutInput) -> LayoutOutput;
}

pub trait LayoutBlockContainer: LayoutPartialTree {
    type BlockContainerStyle<'a>: BlockContainerStyle
    where
        Self: 'a;
    type BlockItemStyle<'a>: BlockItemStyle
    where
        Self: 'a;
    fn get_block_container_style(&self, node: NodeId) -> Self::BlockContainerStyle<'_>;
    fn get_block_child_style(&self, node: NodeId) -> Self::BlockItemStyle<'_>;
    fn compute_block_child_layout(
        &mut self,
        node: NodeId,
        inputs: LayoutInput,
        block_ctx: Option<&mut BlockContext<'_>>,
    ) -> LayoutOutput;
}

const DEFINITE: Size<bool> = Size { width: true, height: true };

pub(crate) trait LayoutPartialTreeExt: LayoutPartialTree {
    #[allow(clippy::too_many_arguments)]
    fn measure_child_size(
        &mut self,
        node: NodeId,
        known_dimensions: Size<Option<f32>>,
        parent_size: Size<Option<f32>>,
        available_space: Size<AvailableSpace>,
        sizing_mode: SizingMode,
        axis: AbsoluteAxis,
        vertical_margins_are_collapsible: Line<bool>,
    ) -> f32 {
        let inputs = LayoutInput {
            run_mode: RunMode::ComputeSize,
            sizing_mode,
            axis: axis.into(),
            known_dimensions,
            known_dimensions_are_definite: DEFINITE,
            parent_size,
            available_space,
            vertical_margins_are_collapsible,
        };
        self.compute_child_layout(node, inputs).size.get_abs(axis)
    }

    fn measure_child_size_both(
        &mut self,
        node: NodeId,
        known_dimensions: Size<Option<f32>>,
        parent_size: Size<Option<f32>>,
        available_space: Size<AvailableSpace>,
        sizing_mode: SizingMode,
        vertical_margins_are_collapsible: Line<bool>,
    ) -> Size<f32> {
        let inputs = LayoutInput {
            run_mode: RunMode::ComputeSize,
            sizing_mode,
            axis: RequestedAxis::Both,
            known_dimensions,
            known_dimensions_are_definite: DEFINITE,
            parent_size,
            available_space,
            vertical_margins_are_collapsible,
        };
        self.compute_child_layout(node, inputs).size
    }

    fn perform_child_layout(
        &mut self,
        node: NodeId,
        known_dimensions: Size<Option<f32>>,
        parent_size: Size<Option<f32>>,
        available_space: Size<AvailableSpace>,
        sizing_mode: SizingMode,
        vertical_margins_are_collapsible: Line<bool>,
    ) -> LayoutOutput {
        let inputs = LayoutInput {
            run_mode: RunMode::PerformLayout,
            sizing_mode,
            axis: RequestedAxis::Both,
            known_dimensions,
            known_dimensions_are_definite: DEFINITE,
            parent_size,
            available_space,
            vertical_margins_are_collapsible,
        };
        self.compute_child_layout(node, inputs)
    }
}

impl<T: LayoutPartialTree> LayoutPartialTreeExt for T {}
