//! Step F: the width of what is inside.
use super::sizes::{across, asked_height, Item, Numbers, Sides};
use super::Reading;
use crate::arithmetic::{clamp, larger};
use crate::page::{field, Ask, Available, Question};

impl Reading<'_> {
    pub(super) fn content_width(
        &mut self,
        available: Available,
        own: &Numbers,
        inset: Sides,
        items: &[Item],
    ) -> f32 {
        let available = available.less(across(inset));
        let mut widest = 0.0;
        for item in items.iter().filter(|item| !self.page.out_of_flow(item.node)) {
            widest = larger(widest, self.child_width(item, available));
        }
        let width = widest + across(inset);
        larger(clamp(width, own.min.width, own.max.width), own.least_width)
    }

    fn child_width(&mut self, item: &Item, available: Available) -> f32 {
        let basis = match available {
            Available::Definite(width) => Some(width),
            _ => None,
        };
        let margins = across(self.sides(item.node, field::MARGIN, basis));
        let numbers = &item.numbers;
        let width = match numbers.size.width {
            Some(width) => clamp(width, numbers.min.width, numbers.max.width),
            None => self.probe(item, available.less(margins)),
        };
        larger(width, numbers.least_width) + margins
    }

    fn probe(&mut self, item: &Item, available: Available) -> f32 {
        let same = self.in_same_context(item.node);
        let question = Question {
            ask: Ask::Width,
            width: None,
            height: asked_height(&item.numbers),
            definite: true,
            parent: None,
            basis: None,
            available,
            start: same,
            end: same,
        };
        let width = self.node(item.node, &question).width;
        self.note_probe(item.node, &question, width);
        width
    }
}
