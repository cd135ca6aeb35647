//! A page: 01's two tables, and the question that is put to it.

pub const WORDS: usize = 4;
pub const NUMBERS: usize = 28;

/// Fields of a node. Margin, padding, border and inset have four, in the order of the sides.
pub mod field {
    pub const WIDTH: usize = 0;
    pub const HEIGHT: usize = 1;
    pub const SIZE: usize = 0;
    pub const MIN: usize = 2;
    pub const MAX: usize = 4;
    pub const MARGIN: usize = 6;
    pub const PADDING: usize = 10;
    pub const BORDER: usize = 14;
    pub const INSET: usize = 18;
    pub const RATIO: usize = 22;
    pub const SCROLLBAR: usize = 23;
    pub const LEAF_MIN: usize = 24;
    pub const LEAF_MAX: usize = 25;
    pub const LEAF_HEIGHT: usize = 26;
    pub const LEAF_BASELINE: usize = 27;
    /// How many fields have a unit.
    pub const UNITS: usize = 22;
}

pub const TOP: usize = 0;
pub const RIGHT: usize = 1;
pub const BOTTOM: usize = 2;
pub const LEFT: usize = 3;

pub const AUTO: u32 = 0;
pub const PIXELS: u32 = 1;
pub const FRACTION: u32 = 2;

#[derive(Copy, Clone, PartialEq, Eq)]
pub enum Kind {
    Block,
    Leaf,
    Hidden,
}

#[derive(Copy, Clone, PartialEq, Eq)]
pub enum Position {
    Plain,
    Relative,
    OutOfFlow,
}

#[derive(Copy, Clone, PartialEq, Eq)]
pub enum Overflow {
    Visible,
    Clip,
    Hidden,
    Scroll,
}

#[derive(Copy, Clone, PartialEq, Eq)]
pub enum Align {
    Normal,
    Start,
    Center,
    End,
    SpaceBetween,
    SpaceAround,
    SpaceEvenly,
    Stretch,
}

#[derive(Copy, Clone, PartialEq)]
pub enum Available {
    Definite(f32),
    MinContent,
    MaxContent,
}

impl Available {
    /// What is left of a definite width after `taken`.
    pub fn less(self, taken: f32) -> Available {
        match self {
            Available::Definite(width) => Available::Definite(width - taken),
            other => other,
        }
    }
}

/// What is asked for: a layout, or the size alone, or the width alone.
#[derive(Copy, Clone, PartialEq, Eq)]
pub enum Ask {
    Layout,
    Size,
    Width,
}

#[derive(Copy, Clone)]
pub struct Question {
    pub ask: Ask,
    pub width: Option<f32>,
    pub height: Option<f32>,
    /// Whether the height that is asked is definite.
    pub definite: bool,
    /// The width of the parent. At the root it is always there.
    pub parent: Option<f32>,
    /// What a fraction of a height is a part of. At the root it is never there.
    pub basis: Option<f32>,
    pub available: Available,
    /// Whether margins may collapse through the top and the bottom edge.
    pub start: bool,
    pub end: bool,
}

#[derive(Clone)]
pub struct Page {
    pub words: Vec<u32>,
    pub numbers: Vec<f32>,
    pub question: Question,
}

impl Page {
    pub fn nodes(&self) -> usize {
        self.words.len() / WORDS
    }
    /// How many nodes the subtree has.
    pub fn subtree(&self, node: usize) -> usize {
        self.words[WORDS * node] as usize
    }
    pub fn number(&self, node: usize, field: usize) -> f32 {
        self.numbers[NUMBERS * node + field]
    }
    /// Words 1 to 3.
    pub fn style_words(&self, node: usize) -> [u32; 3] {
        [1, 2, 3].map(|word| self.words[WORDS * node + word])
    }
    pub fn unit(&self, node: usize, field: usize) -> u32 {
        let (word, at) = unit_place(field);
        self.words[WORDS * node + word] >> at & 3
    }
    pub fn ratio(&self, node: usize) -> Option<f32> {
        let ratio = self.number(node, field::RATIO);
        (ratio != 0.0).then_some(ratio)
    }

    fn style(&self, node: usize, at: u32, bits: u32) -> u32 {
        self.words[WORDS * node + 1] >> at & ((1 << bits) - 1)
    }
    pub fn kind(&self, node: usize) -> Kind {
        match self.style(node, 0, 2) {
            0 => Kind::Block,
            1 => Kind::Leaf,
            _ => Kind::Hidden,
        }
    }
    pub fn content_box(&self, node: usize) -> bool {
        self.style(node, 2, 1) == 1
    }
    pub fn rtl(&self, node: usize) -> bool {
        self.style(node, 3, 1) == 1
    }
    pub fn position(&self, node: usize) -> Position {
        match self.style(node, 4, 2) {
            0 => Position::Plain,
            1 => Position::Relative,
            _ => Position::OutOfFlow,
        }
    }
    pub fn out_of_flow(&self, node: usize) -> bool {
        self.position(node) == Position::OutOfFlow
    }
    fn overflow(&self, node: usize, at: u32) -> Overflow {
        match self.style(node, at, 2) {
            0 => Overflow::Visible,
            1 => Overflow::Clip,
            2 => Overflow::Hidden,
            _ => Overflow::Scroll,
        }
    }
    pub fn overflow_x(&self, node: usize) -> Overflow {
        self.overflow(node, 6)
    }
    pub fn overflow_y(&self, node: usize) -> Overflow {
        self.overflow(node, 8)
    }
    pub fn align(&self, node: usize) -> Align {
        match (self.style(node, 13, 3), self.style(node, 10, 2)) {
            (0, 0) => Align::Normal,
            (0, 1) => Align::Start,
            (0, 2) => Align::Center,
            (0, _) => Align::End,
            (1, _) => Align::SpaceBetween,
            (2, _) => Align::SpaceAround,
            (3, _) => Align::SpaceEvenly,
            _ => Align::Stretch,
        }
    }
    pub fn safe(&self, node: usize) -> bool {
        self.style(node, 17, 1) == 1
    }
    pub fn contained(&self, node: usize) -> bool {
        self.style(node, 12, 1) == 1
    }

    /// What a leaf shows as its first baseline.
    pub fn baseline(&self, node: usize) -> Option<f32> {
        let shows = self.style(node, 16, 1) == 1 && !self.contained(node);
        shows.then(|| self.number(node, field::LEAF_BASELINE))
    }

    pub fn children(&self, node: usize) -> impl Iterator<Item = usize> + '_ {
        let end = node + self.subtree(node);
        let first = Some(node + 1).filter(|child| *child < end);
        std::iter::successors(first, move |child| {
            Some(child + self.subtree(*child)).filter(|next| *next < end)
        })
    }

    /// The parent of each node; the root is its own.
    pub fn parents(&self) -> Vec<usize> {
        let mut parents = vec![0; self.nodes()];
        for node in 0..self.nodes() {
            for child in self.children(node) {
                parents[child] = node;
            }
        }
        parents
    }
}

/// The word of a node that has a field's unit, and the lowest of its two bits.
pub fn unit_place(field: usize) -> (usize, usize) {
    if field < 14 {
        (2, 2 * field)
    } else {
        (3, 2 * (field - 14))
    }
}
