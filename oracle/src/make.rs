//! Random pages: all that 01 allows, and some that it refuses with 3. Each page has a mood, so that pages
//! without a feature are as common as pages full of it.
use crate::page::{
    field, unit_place, Ask, Available, Page, Question, AUTO, FRACTION, NUMBERS, PIXELS, WORDS,
};
use crate::random::Random;

/// The kind of numbers on a page.
#[derive(Copy, Clone, PartialEq, Eq)]
pub enum Figures {
    /// Small whole numbers: nearly all sums are exact, so that a difference is one of sense.
    Whole,
    /// Any digits, of usual size.
    Real,
    /// Any digits, of any size that 01 allows.
    Wide,
    /// All of these on one page.
    Mixed,
}

impl Figures {
    pub const LIST: [Figures; 4] = [Figures::Whole, Figures::Real, Figures::Wide, Figures::Mixed];

    pub fn name(self) -> &'static str {
        match self {
            Figures::Whole => "whole",
            Figures::Real => "real",
            Figures::Wide => "wide",
            Figures::Mixed => "mixed",
        }
    }
}

const BLOCK: u32 = 0;
const LEAF: u32 = 1;
const HIDDEN: u32 = 2;

/// Start, center, end, each word, and safe center and end.
const ALIGNS: [u32; 9] =
    [1 << 10, 2 << 10, 3 << 10, 1 << 13, 2 << 13, 3 << 13, 4 << 13, 1 << 17 | 2 << 10, 1 << 17 | 3 << 10];

/// Height, its minimum and maximum: beside a fraction in one of these 01 refuses a ratio.
const HEIGHTS: [usize; 3] = [field::SIZE + 1, field::MIN + 1, field::MAX + 1];

const MOST_PIXELS: f32 = 65_536.0;
const MOST_NODES: u64 = 1_024;
const MOST_DEPTH: usize = 32;

/// What is common on a page; numbers are in percent.
struct Mood {
    figures: Figures,
    /// Many boxes that margins go through.
    flat: bool,
    scroll: u64,
    ratio: u64,
    relative: u64,
    out_of_flow: u64,
    rtl: u64,
    /// Leaves with a baseline.
    lines: u64,
    fractions: u64,
    /// Fractions of heights. Then more boxes have a height at all, so that there are parts of parts.
    heights: u64,
    /// Numbers close to the limit, where results grow too large.
    large: u64,
    /// How often a child gets all that is left of the nodes, so that pages grow deep.
    chains: u64,
    depth: usize,
}

pub fn page(random: &mut Random) -> (Page, Figures) {
    let nodes = count_of_nodes(random);
    let mood = mood(random, nodes);
    let mut maker = Maker { random, mood, words: Vec::new(), numbers: Vec::new() };
    maker.subtree(nodes, 1);
    if maker.random.chance(2) {
        maker.spoil(nodes);
    }
    let question = maker.question();
    (Page { words: maker.words, numbers: maker.numbers, question }, maker.mood.figures)
}

/// Mostly few, as small pages are quick and their differences easy to read; 2 in 100 up to the limit.
fn count_of_nodes(random: &mut Random) -> usize {
    let nodes = match random.below(100) {
        0..=1 => 32 + random.below(MOST_NODES - 31),
        2..=10 => 8 + random.below(24),
        11..=40 => 3 + random.below(8),
        41..=90 => 2 + random.below(4),
        _ => 1 + random.below(2),
    };
    nodes as usize
}

fn mood(random: &mut Random, nodes: usize) -> Mood {
    let mut either = |percent: u64, often: u64| if random.chance(percent) { often } else { 0 };
    let (scroll, relative) = (either(50, 20), either(50, 30));
    let (out_of_flow, rtl, fractions) = (either(60, 15), either(50, 40), either(60, 20));
    let lines = either(50, 60);
    let (heights, large, chains) = (either(50, 40), either(10, 80), either(20, 85));
    // Few nodes reach the limit without a ratio.
    let ratio = if large > 0 { 50 } else { either(40, 15) };
    Mood {
        figures: random.one_of(&Figures::LIST),
        flat: random.chance(50),
        scroll,
        ratio,
        relative,
        out_of_flow,
        rtl,
        lines,
        fractions,
        heights,
        large,
        chains,
        depth: if nodes < 32 { 9 } else { MOST_DEPTH },
    }
}

struct Maker<'a> {
    random: &'a mut Random,
    mood: Mood,
    words: Vec<u32>,
    numbers: Vec<f32>,
}

impl Maker<'_> {
    /// A node at this depth and all below it, `nodes` in number.
    fn subtree(&mut self, nodes: usize, depth: usize) {
        let kind = self.kind(nodes, depth);
        self.node(kind, depth == 1, nodes);
        let mut left = nodes - 1;
        while left > 0 {
            let child = self.share(left, depth + 1);
            self.subtree(child, depth + 1);
            left -= child;
        }
    }

    fn kind(&mut self, nodes: usize, depth: usize) -> u32 {
        if depth == 1 {
            return BLOCK;
        }
        match self.random.below(100) {
            0..=2 => HIDDEN,
            3..=44 if nodes == 1 => LEAF,
            _ => BLOCK,
        }
    }

    /// How many of the nodes that are left the next child gets.
    fn share(&mut self, left: usize, depth: usize) -> usize {
        if depth >= self.mood.depth {
            1
        } else if self.random.chance(self.mood.chains) {
            left
        } else if self.random.chance(45) {
            1
        } else {
            1 + self.random.below(left as u64) as usize
        }
    }

    fn node(&mut self, kind: u32, root: bool, nodes: usize) {
        let mut words = [nodes as u32, kind | self.style(root), 0, 0];
        let mut numbers = [0.0; NUMBERS];
        let mut part_of_height = false;
        for field in 0..field::UNITS {
            let (unit, number) = self.length(field);
            let (word, at) = unit_place(field);
            words[word] |= unit << at;
            numbers[field] = number;
            part_of_height |= HEIGHTS.contains(&field) && unit == FRACTION;
        }
        if part_of_height {
            numbers[field::RATIO] = self.zero();
        } else if self.random.chance(self.mood.ratio) {
            numbers[field::RATIO] = self.ratio();
        }
        if self.random.chance(60) {
            numbers[field::SCROLLBAR] = self.pixels();
        }
        if kind == LEAF || self.random.chance(3) {
            let (a, b) = (self.pixels(), self.pixels());
            numbers[field::LEAF_MIN] = a.min(b);
            numbers[field::LEAF_MAX] = a.max(b);
            let height = if self.random.chance(20) { 0.0 } else { self.pixels() };
            numbers[field::LEAF_HEIGHT] = height;
            if self.random.chance(self.mood.lines) {
                words[1] |= ((kind == LEAF) as u32) << 16;
                numbers[field::LEAF_BASELINE] = self.random.one_of(&[0.0, -0.0, height, 0.75 * height]);
            }
        }
        self.words.extend(words);
        self.numbers.extend(numbers);
    }

    /// Gives a node a ratio beside a fraction of a height, or another node a code that means nothing, or
    /// both. Only -0 is no ratio.
    fn spoil(&mut self, nodes: usize) {
        let mut some_node = || self.random.below(nodes as u64) as usize;
        let (node, other, last) = (some_node(), some_node(), some_node());
        if self.random.chance(80) {
            let field = self.random.one_of(&HEIGHTS);
            let (word, at) = unit_place(field);
            let units = &mut self.words[WORDS * node + word];
            *units = *units & !(3 << at) | FRACTION << at;
            self.numbers[NUMBERS * node + field] = self.fraction();
            self.numbers[NUMBERS * node + field::RATIO] =
                self.random.one_of(&[-0.0, 1.0 / 64.0, 1.0, 64.0, 100.0, -1.0, f32::NAN]);
        }
        if self.random.chance(40) {
            let (word, bit) =
                self.random.one_of(&[(1, 16), (1, 18), (1, 31), (2, 28), (2, 31), (3, 16), (3, 31)]);
            self.words[WORDS * other + word] |= 1 << bit;
        }
        if self.random.chance(40) {
            // Any word beside any bits 10-11 and any safety: most of these mean nothing.
            let (plain, word, safe) =
                (self.random.below(4) as u32, self.random.below(8) as u32, self.random.below(2) as u32);
            let style = &mut self.words[WORDS * last + 1];
            *style = *style & !(3 << 10 | 7 << 13 | 1 << 17) | plain << 10 | word << 13 | safe << 17;
        }
    }

    /// The style word without the kind.
    fn style(&mut self, root: bool) -> u32 {
        let mood = &self.mood;
        let random = &mut *self.random;
        let content_box = random.chance(25) as u32;
        let rtl = random.chance(mood.rtl) as u32;
        // 01 leaves the root's position free; but pages whose root is out of the flow are dull.
        let out = random.chance(mood.out_of_flow) && (!root || random.chance(10));
        let position = if out { 2 } else { random.chance(mood.relative) as u32 };
        let overflow_x = if random.chance(mood.scroll) { random.below(4) as u32 } else { 0 };
        let overflow_y = if random.chance(mood.scroll) { random.below(4) as u32 } else { 0 };
        let align = if random.chance(16) { random.one_of(&ALIGNS) } else { 0 };
        let contained = random.chance(5) as u32;
        content_box << 2
            | rtl << 3
            | position << 4
            | overflow_x << 6
            | overflow_y << 8
            | align
            | contained << 12
    }

    /// The unit and the number of a field.
    fn length(&mut self, field: usize) -> (u32, f32) {
        let (auto, zero) = self.likely(field);
        if self.random.chance(auto) {
            // The number of an auto field has to change nothing.
            let number = if self.random.chance(3) { self.pixels() } else { 0.0 };
            return (AUTO, number);
        }
        let often = if of_height(field) { self.mood.heights } else { self.mood.fractions };
        let fraction = self.random.chance(often);
        let number = if fraction {
            self.fraction()
        } else if self.random.chance(zero) {
            self.zero()
        } else {
            self.pixels()
        };
        let unit = if fraction { FRACTION } else { PIXELS };
        (unit, if may_be_negative(field) && self.random.chance(35) { -number } else { number })
    }

    /// In how many of a hundred cases a field is auto, and in how many of the others 0 pixels.
    fn likely(&self, field: usize) -> (u64, u64) {
        let flat = self.mood.flat;
        let no_height = if flat { 85 } else { 65 };
        // Sides go around from the top, so even ones are top and bottom.
        match (field, field % 2 == 0) {
            (field::WIDTH, _) => (65, 5),
            (field::HEIGHT, _) if self.mood.heights > 0 => (no_height - 25, 12),
            (field::HEIGHT, _) => (no_height, 12),
            (2..=5, _) => (80, 25),
            (6..=9, true) => (7, 35),
            (6..=9, false) => (20, 45),
            (10..=17, true) => (0, if flat { 88 } else { 75 }),
            (10..=17, false) => (0, 70),
            _ => (60, 10),
        }
    }

    /// Either zero: 01 takes both as 0.
    fn zero(&mut self) -> f32 {
        self.random.one_of(&[0.0, 0.0, 0.0, 0.0, 0.0, 0.0, 0.0, 0.0, 0.0, -0.0])
    }

    fn pixels(&mut self) -> f32 {
        let figures = match self.mood.figures {
            Figures::Mixed => {
                self.random.one_of(&[Figures::Whole, Figures::Whole, Figures::Real, Figures::Wide])
            }
            figures => figures,
        };
        match figures {
            Figures::Real => self.digits() * 2f32.powi(self.random.below(12) as i32 - 2),
            Figures::Wide => self.wide(),
            _ => self
                .random
                .one_of(&[0., 1., 2., 3., 5., 7., 10., 12., 15., 20., 25., 30., 40., 50., 64., 100.]),
        }
    }

    fn wide(&mut self) -> f32 {
        if self.random.chance(self.mood.large) {
            return self.digits() * 2f32.powi(12 + self.random.below(4) as i32);
        }
        match self.random.below(20) {
            0 => 0.0,
            1 => MOST_PIXELS,
            // Any bits at all: nearly always a number close to 0, down to the smallest there is.
            2 => f32::from_bits(self.random.below(MOST_PIXELS.to_bits() as u64 + 1) as u32),
            _ => (self.digits() * 2f32.powi(self.random.below(37) as i32 - 20)).min(MOST_PIXELS),
        }
    }

    /// From 1, and below 2.
    fn digits(&mut self) -> f32 {
        f32::from_bits(1f32.to_bits() | self.random.below(1 << 23) as u32)
    }

    fn fraction(&mut self) -> f32 {
        if self.mood.figures == Figures::Whole || self.random.chance(40) {
            self.random.one_of(&[0.0, 0.125, 0.25, 0.5, 0.75, 0.875, 1.0])
        } else {
            self.random.unit()
        }
    }

    fn ratio(&mut self) -> f32 {
        if self.random.chance(self.mood.large) {
            return self.random.one_of(&[0.015625, 64.0]);
        }
        let number = if self.random.chance(33) { 0.0 } else { self.pixels() };
        if (1.0 / 64.0..=64.0).contains(&number) {
            number
        } else {
            self.random.one_of(&[0.015625, 0.5, 1.0, 2.0, 4.0, 10.0, 64.0])
        }
    }

    fn question(&mut self) -> Question {
        let asked_height = if self.mood.heights > 0 { 30 } else { 15 };
        Question {
            ask: match self.random.below(10) {
                0 => Ask::Width,
                1 | 2 => Ask::Size,
                _ => Ask::Layout,
            },
            width: if self.random.chance(55) { Some(self.pixels()) } else { None },
            height: if self.random.chance(asked_height) { Some(self.pixels()) } else { None },
            definite: self.random.chance(50),
            parent: Some(self.pixels()),
            basis: None,
            available: match self.random.below(4) {
                0 => Available::MinContent,
                1 => Available::MaxContent,
                _ => Available::Definite(self.pixels()),
            },
            start: self.random.chance(60),
            end: self.random.chance(60),
        }
    }
}

/// Margins and insets.
fn may_be_negative(field: usize) -> bool {
    matches!(field, 6..=9 | 18..=21)
}

/// Heights, and top and bottom inset: their fractions are of a height.
fn of_height(field: usize) -> bool {
    matches!(field, 1 | 3 | 5 | 18 | 20)
}
