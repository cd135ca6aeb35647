//! Makes a page smaller while it keeps a property, so that what is wrong with it can be read.
use crate::page::{field, unit_place, Page, Question, AUTO, NUMBERS, PIXELS, WORDS};

/// The bits of a style word after the kind.
const STYLE_BITS: std::ops::Range<u32> = 2..18;

/// What can be taken from a question.
const QUESTION_STEPS: [fn(&mut Page); 4] = [
    |page| page.question.height = None,
    |page| page.question.definite = false,
    |page| page.question.start = false,
    |page| page.question.end = false,
];

pub fn shrink(mut page: Page, mut keeps: impl FnMut(&Page) -> bool) -> Page {
    loop {
        let before = weight(&page);
        for node in (1..page.nodes()).rev() {
            // A subtree that went took its nodes along.
            if node < page.nodes() {
                try_step(&mut page, without(node), &mut keeps);
            }
        }
        for step in QUESTION_STEPS {
            try_step(&mut page, step, &mut keeps);
        }
        for node in 0..page.nodes() {
            for bit in STYLE_BITS {
                try_step(&mut page, without_style(node, bit), &mut keeps);
            }
            for field in 0..NUMBERS {
                try_step(&mut page, plain_field(node, field), &mut keeps);
            }
        }
        if before == weight(&page) {
            return page;
        }
    }
}

fn try_step(page: &mut Page, step: impl Fn(&mut Page), keeps: &mut impl FnMut(&Page) -> bool) {
    let mut smaller = page.clone();
    step(&mut smaller);
    if weight(&smaller) < weight(page) && keeps(&smaller) {
        *page = smaller;
    }
}

/// How much there is to read: nodes, their styles, fields that are not plain, and the question.
fn weight(page: &Page) -> u32 {
    let styles: u32 = page.words.chunks(WORDS).map(|words| 1 + words[1].count_ones()).sum();
    let numbers = page.numbers.iter().filter(|number| number.to_bits() != 0).count();
    let units =
        |node| (0..field::UNITS).filter(|field| page.unit(node, *field) != plain_unit(*field)).count();
    let Question { height, definite, start, end, .. } = page.question;
    let question = [height.is_some(), definite, start, end].map(u32::from).iter().sum::<u32>();
    question + styles + numbers as u32 + (0..page.nodes()).map(units).sum::<usize>() as u32
}

/// Takes away a node with all below it.
fn without(node: usize) -> impl Fn(&mut Page) {
    move |page| {
        let gone = page.subtree(node);
        for above in 0..node {
            if above + page.subtree(above) > node {
                page.words[WORDS * above] -= gone as u32;
            }
        }
        page.words.drain(WORDS * node..WORDS * (node + gone));
        page.numbers.drain(NUMBERS * node..NUMBERS * (node + gone));
    }
}

fn without_style(node: usize, bit: u32) -> impl Fn(&mut Page) {
    move |page| page.words[WORDS * node + 1] &= !(1 << bit)
}

/// Margins, padding and border are plain at no pixels, other lengths at auto.
fn plain_unit(field: usize) -> u32 {
    if (field::MARGIN..field::INSET).contains(&field) {
        PIXELS
    } else {
        AUTO
    }
}

fn plain_field(node: usize, field: usize) -> impl Fn(&mut Page) {
    move |page| {
        page.numbers[NUMBERS * node + field] = 0.0;
        if field == field::LEAF_HEIGHT {
            page.numbers[NUMBERS * node + field::LEAF_BASELINE] = 0.0; // not above the height
        }
        if field < field::UNITS {
            let (word, at) = unit_place(field);
            let units = &mut page.words[WORDS * node + word];
            *units = *units & !(3 << at) | plain_unit(field) << at;
        }
    }
}
