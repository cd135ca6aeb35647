//! The rows that a layout leaves, and the candidates.
use super::sizes::Item;
use super::stack::{Frame, Stack};
use super::{Answer, Reading};
use crate::outcome::{Candidate, BASIS, HEIGHT_ASKED, LAID, LINED, OUT, PROBED, PROBE_HEIGHT, THROUGH};
use crate::page::{Available, Kind, Question, LEFT, RIGHT};
use crate::rules::Rule;

impl Reading<'_> {
    pub(super) fn note_layout(&mut self, node: usize, question: &Question, answer: &Answer) {
        let row = &mut self.rows[node];
        row.numbers[2..11].copy_from_slice(&[
            answer.width,
            answer.height,
            answer.top.positive,
            answer.top.negative,
            answer.bottom.positive,
            answer.bottom.negative,
            question.width.unwrap_or(0.0),
            question.height.unwrap_or(0.0),
            question.parent.unwrap_or(0.0),
        ]);
        row.numbers[14] = question.basis.unwrap_or(0.0);
        row.bits |= LAID;
        if answer.through {
            row.bits |= THROUGH;
        }
        if question.height.is_some() {
            row.bits |= HEIGHT_ASKED;
        }
        if question.basis.is_some() {
            row.bits |= BASIS;
        }
        if let Some(line) = answer.baseline {
            row.numbers[15] = line;
            row.bits |= LINED;
        }
    }

    pub(super) fn note_probe(&mut self, node: usize, question: &Question, width: f32) {
        let (definite, kind) = match question.available {
            Available::Definite(width) => (width, 1),
            Available::MinContent => (0.0, 2),
            Available::MaxContent => (0.0, 3),
        };
        let row = &mut self.rows[node];
        row.numbers[11..14].copy_from_slice(&[definite, question.height.unwrap_or(0.0), width]);
        row.bits |= PROBED | kind << 5;
        if question.height.is_some() {
            row.bits |= PROBE_HEIGHT;
        }
    }

    pub(super) fn note_place(&mut self, item: &Item, x: f32, y: f32) {
        let row = &mut self.rows[item.node];
        row.numbers[0] = x;
        row.numbers[1] = y;
        row.order = item.order;
    }

    pub(super) fn note_out_of_flow(&mut self, frame: &Frame, stack: &Stack, item: &Item) {
        let line = if self.on(Rule::LineAfterThrough) {
            stack.rust_line
        } else if stack.at_top && frame.own_start {
            stack.y + 0.0
        } else {
            stack.y + stack.strut.sum()
        };
        let row = &mut self.rows[item.node];
        row.numbers[..3].copy_from_slice(&[frame.inset[LEFT], line, frame.width - frame.inset[RIGHT]]);
        row.order = item.order;
        row.bits = OUT;
    }

    /// A hidden child's order counts all children before it.
    pub(super) fn order_hidden(&mut self, node: usize) {
        for (child, order) in self.page.children(node).zip(0..) {
            if self.page.kind(child) == Kind::Hidden {
                self.rows[child].order = order;
            }
        }
    }

    pub(super) fn candidates(&self) -> Vec<Candidate> {
        let parents = self.page.parents();
        let out = (0..self.rows.len()).filter(|node| self.rows[*node].bits & OUT != 0);
        out.map(|node| self.candidate(node, &parents)).collect()
    }

    /// Places are added from the parent upwards, without the root's.
    fn candidate(&self, node: usize, parents: &[usize]) -> Candidate {
        let row = &self.rows[node];
        let [mut start, mut line, mut end] = [0, 1, 2].map(|at| row.numbers[at]);
        let mut above = parents[node];
        while above != 0 {
            let numbers = &self.rows[above].numbers;
            start += numbers[0];
            end += numbers[0];
            line += numbers[1];
            above = parents[above];
        }
        Candidate { node: node as u32, order: row.order, start, end, line }
    }
}
