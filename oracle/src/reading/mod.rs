//! A plain reading of 01: the steps A to N in their order, with nothing kept between questions.
//! Where block.rs parts from 01, a rule turns the step to block.rs's side. With no rule this is 01,
//! with all rules it is block.rs; the rules that a page needs say why the two differ on it.
mod refused;
mod rows;
mod sizes;
mod stack;
mod widths;

use crate::arithmetic::{clamp, larger, Set};
use crate::outcome::{Outcome, Row, BAD_STYLE};
use crate::page::{field, Align, Ask, Available, Kind, Overflow, Page, Question, BOTTOM, TOP};
use crate::rules::{Rule, Rules};
use sizes::{across, definite_height, down, known_sizes, Numbers, Pair};
use stack::Frame;

/// What 01 says of the page, refusals and all.
pub fn plain(page: &Page) -> Outcome {
    match (0..page.nodes()).find(|node| refused::bad_style(page, *node)) {
        Some(node) => Outcome::Refused { number: BAD_STYLE, place: node as u32 },
        None => answer(page, Rules::NONE).limited(),
    }
}

/// What the page comes to under these rules. Nothing is refused here.
pub fn answer(page: &Page, rules: Rules) -> Outcome {
    let mut reading = Reading { page, rules, rows: vec![Row::default(); page.nodes()] };
    let answer = reading.node(0, &page.question);
    if page.question.ask != Ask::Layout {
        return Outcome::Size(answer.width, answer.height);
    }
    let candidates = reading.candidates();
    Outcome::Laid { rows: reading.rows, candidates }
}

/// What a node answers its parent.
struct Answer {
    width: f32,
    height: f32,
    top: Set,
    bottom: Set,
    through: bool,
    baseline: Option<f32>,
}

impl Answer {
    fn size(width: f32, height: f32) -> Answer {
        Answer { width, height, top: Set::EMPTY, bottom: Set::EMPTY, through: false, baseline: None }
    }
}

struct Reading<'a> {
    page: &'a Page,
    rules: Rules,
    rows: Vec<Row>,
}

impl Reading<'_> {
    fn on(&self, rule: Rule) -> bool {
        self.rules.has(rule)
    }

    fn node(&mut self, node: usize, question: &Question) -> Answer {
        let answer = match self.page.kind(node) {
            Kind::Leaf => self.leaf(node, question),
            _ => self.container(node, question),
        };
        if question.ask == Ask::Layout {
            self.note_layout(node, question, &answer);
        }
        answer
    }

    /// A leaf takes the sizes that it is asked, else those of its table.
    fn leaf(&self, node: usize, question: &Question) -> Answer {
        let table = |field| self.page.number(node, field);
        let (min, max) = (table(field::LEAF_MIN), table(field::LEAF_MAX));
        let width = question.width.unwrap_or(match question.available {
            Available::MinContent => min,
            Available::MaxContent => max,
            Available::Definite(width) => clamp(width, Some(min), Some(max)),
        });
        let height = question.height.unwrap_or(table(field::LEAF_HEIGHT));
        Answer { baseline: self.page.baseline(node), ..Answer::size(width, height) }
    }

    fn container(&mut self, node: usize, question: &Question) -> Answer {
        // A, B, C
        let own = self.numbers(node, Pair { width: question.parent, height: question.basis });
        let known = known_sizes(question, &own);
        if let Some(answer) = answered_by_known(question.ask, known) {
            return answer;
        }
        // D, E
        let known = self.filled_by_ratio(node, known, &own);
        let inset = self.insets(node, &own);
        let basis = Pair {
            width: known.width.map(|width| width - across(inset)),
            height: definite_height(question, known).map(|height| height - down(inset)),
        };
        // F, G. Here no fraction of a height counts.
        let width = match known.width {
            Some(width) => width,
            None => {
                let items = self.items(node, Pair { height: None, ..basis });
                self.content_width(question.available, &own, inset, &items)
            }
        };
        let height = known.height.map(|height| self.raised(height, &own));
        if let Some(answer) = answered_by_width(question.ask, width, height) {
            return answer;
        }
        // H finds the numbers of A again: only a probe has no parent width, and it has its answer.
        // I
        let own_start = question.start && self.adjoins(node, &own, TOP);
        let own_end = question.end && self.adjoins(node, &own, BOTTOM) && own.size.height.is_none();
        // J, K. The children's numbers again, by the width that is known now.
        let again = if self.on(Rule::NumbersOnce) { basis.width } else { Some(width - across(inset)) };
        let items = self.items(node, Pair { width: again, ..basis });
        let frame = Frame {
            ask: question.ask,
            width,
            inset,
            inner: self.inner_width(width, inset),
            basis: self.height_basis(basis.height, &own, inset),
            rtl: self.page.rtl(node),
            own_start,
        };
        let stack = self.stack(&frame, &items);
        let content = self.content_height(&frame, &stack, own_end);
        // L
        let clamped = clamp(content, own.min.height, own.max.height);
        let height = larger(known.height.unwrap_or(clamped), own.least_height);
        let held_by_min = own.min.height.is_some_and(|min| min > 0.0 && min >= height);
        // M, N
        let shift = self.shift(node, height, content, down(inset));
        if question.ask == Ask::Layout {
            if let Some(shift) = shift {
                items.iter().for_each(|item| self.rows[item.node].numbers[1] += shift);
            }
            self.order_hidden(node);
        }
        let baseline = stack.baseline.map(|line| shift.map_or(line, |shift| line + shift));
        let margin = |side| self.length(node, field::MARGIN + side, question.parent).unwrap_or(0.0);
        Answer {
            width,
            height,
            top: if own_start { stack.top } else { Set::of(margin(TOP)) },
            bottom: if own_end && !held_by_min { stack.strut } else { Set::of(margin(BOTTOM)) },
            through: height == 0.0 && stack.all_through && self.lets_through(node, &own),
            baseline: baseline.filter(|_| !self.page.contained(node)),
        }
    }

    /// Step G: a known height is not below padding and border.
    fn raised(&self, height: f32, own: &Numbers) -> f32 {
        if self.on(Rule::RatioHeightAsIs) {
            height
        } else {
            larger(height, own.least_height)
        }
    }

    /// Step I.
    fn new_context(&self, node: usize) -> bool {
        let page = self.page;
        let clips = |overflow| matches!(overflow, Overflow::Hidden | Overflow::Scroll);
        clips(page.overflow_x(node))
            || clips(page.overflow_y(node))
            || page.align(node) != Align::Normal
            || page.contained(node)
    }

    /// Of a child in the flow.
    fn in_same_context(&self, node: usize) -> bool {
        self.page.kind(node) == Kind::Block && !self.new_context(node)
    }

    fn adjoins(&self, node: usize, own: &Numbers, side: usize) -> bool {
        !self.new_context(node)
            && !self.page.out_of_flow(node)
            && own.padding[side] == 0.0
            && own.border[side] == 0.0
    }

    /// Step M.
    fn shift(&self, node: usize, height: f32, content: f32, inset: f32) -> Option<f32> {
        let free = (height - inset) - (content - inset);
        match self.page.align(node) {
            Align::Normal | Align::Start | Align::SpaceBetween | Align::Stretch => None,
            Align::SpaceAround | Align::SpaceEvenly => Some(larger(free, 0.0) / 2.0),
            _ if self.page.safe(node) && free < 0.0 => Some(0.0),
            Align::Center => Some(free / 2.0),
            Align::End => Some(free),
        }
    }

    /// Step N, but for the height and the children.
    fn lets_through(&self, node: usize, own: &Numbers) -> bool {
        let flat = |side: usize| !(own.padding[side] > 0.0) && !(own.border[side] > 0.0);
        node != 0 && !self.page.out_of_flow(node) && !self.new_context(node) && flat(TOP) && flat(BOTTOM)
    }
}

/// Step C.
fn answered_by_known(ask: Ask, known: Pair) -> Option<Answer> {
    match (ask, known.width, known.height) {
        (Ask::Layout, ..) => None,
        (_, Some(width), Some(height)) => Some(Answer::size(width, height)),
        (Ask::Width, Some(width), None) => Some(Answer::size(width, 0.0)),
        _ => None,
    }
}

/// Step G.
fn answered_by_width(ask: Ask, width: f32, height: Option<f32>) -> Option<Answer> {
    match (ask, height) {
        (Ask::Layout, _) => None,
        (_, Some(height)) => Some(Answer::size(width, height)),
        (Ask::Width, None) => Some(Answer::size(width, 0.0)),
        (Ask::Size, None) => None,
    }
}
