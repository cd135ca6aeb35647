//! 01's page file, and answers in its form.
use crate::outcome::{Outcome, Row, LAID, LINED, THROUGH};
use crate::page::{Ask, Available, Page, Question, NUMBERS, WORDS};
use std::fmt::Write;

/// Reads a page file; the error is the number of the first bad line. Unlike the program of 01 this
/// takes up to 1,024 nodes, lines in any order, and nothing is checked that a line does not show.
pub fn read(text: &str, ask: Ask) -> Result<Page, usize> {
    let question = Question {
        ask,
        width: None,
        height: None,
        definite: false,
        parent: Some(0.0),
        basis: None,
        available: Available::MaxContent,
        start: false,
        end: false,
    };
    let mut page = Page { words: Vec::new(), numbers: Vec::new(), question };
    for (line, number) in text.lines().zip(1_usize..) {
        read_line(&mut page, line).ok_or(number)?;
    }
    if is_tree(&page) {
        Ok(page)
    } else {
        Err(text.lines().count())
    }
}

fn read_line(page: &mut Page, line: &str) -> Option<()> {
    let (key, value) = line.split_once('=')?;
    let parts: Vec<&str> = value.split(',').collect();
    let question = &mut page.question;
    match (key, parts.as_slice()) {
        ("nodes", [_]) => {}
        ("parent", [width]) => question.parent = Some(float(width)?),
        ("known", [width, height]) => (question.width, question.height) = (known(width)?, known(height)?),
        ("avail", [width]) => question.available = available(width)?,
        ("lines", [start, end, definite]) => {
            (question.start, question.end, question.definite) = (flag(start)?, flag(end)?, flag(definite)?);
        }
        ("node", words) if words.len() == WORDS => {
            for word in words {
                page.words.push(hex(word)?);
            }
            page.numbers.extend([0.0; NUMBERS]);
        }
        ("num", [field, number]) => {
            let field = field.parse::<usize>().ok().filter(|field| *field < NUMBERS)?;
            let node = page.nodes().checked_sub(1)?;
            page.numbers[NUMBERS * node + field] = float(number)?;
        }
        _ => return None,
    }
    Some(())
}

/// Whether the sizes of the subtrees fit into each other, so that the page can be walked.
fn is_tree(page: &Page) -> bool {
    let fits = |node: usize| page.subtree(node) > 0 && node + page.subtree(node) <= page.nodes();
    page.nodes() > 0
        && page.subtree(0) == page.nodes()
        && (0..page.nodes()).all(fits)
        && (0..page.nodes()).all(|node| {
            let end = node + page.subtree(node);
            page.children(node).all(|child| child + page.subtree(child) <= end)
        })
}

fn hex(text: &str) -> Option<u32> {
    u32::from_str_radix(text, 16).ok()
}

fn float(text: &str) -> Option<f32> {
    hex(text).map(f32::from_bits)
}

fn flag(text: &str) -> Option<bool> {
    match text {
        "0" => Some(false),
        "1" => Some(true),
        _ => None,
    }
}

fn known(text: &str) -> Option<Option<f32>> {
    if text == "none" {
        Some(None)
    } else {
        float(text).map(Some)
    }
}

fn available(text: &str) -> Option<Available> {
    match text {
        "min" => Some(Available::MinContent),
        "max" => Some(Available::MaxContent),
        width => float(width).map(Available::Definite),
    }
}

pub fn write(page: &Page) -> String {
    let question = &page.question;
    let known = |size: Option<f32>| size.map_or("none".to_string(), bits);
    let available = match question.available {
        Available::Definite(width) => bits(width),
        Available::MinContent => "min".to_string(),
        Available::MaxContent => "max".to_string(),
    };
    let mut out = format!("nodes={}\nparent={}\n", page.nodes(), known(question.parent));
    let _ = writeln!(out, "known={},{}", known(question.width), known(question.height));
    let _ = writeln!(out, "avail={available}");
    let flags = [question.start, question.end, question.definite].map(|flag| flag as u8);
    let _ = writeln!(out, "lines={},{},{}", flags[0], flags[1], flags[2]);
    for (words, numbers) in page.words.chunks(WORDS).zip(page.numbers.chunks(NUMBERS)) {
        let words: Vec<String> = words.iter().map(|word| format!("{word:08x}")).collect();
        let _ = writeln!(out, "node={}", words.join(","));
        for (field, number) in numbers.iter().enumerate().filter(|(_, number)| number.to_bits() != 0) {
            let _ = writeln!(out, "num={field},{}", bits(*number));
        }
    }
    out
}

/// The lines of an answer, the two zeros alike. A box has three lines more than in 01: `sets=` with its
/// margin sets and whether margins go through it, `asked=` with its bits 3 to 8 and row numbers 8 to 14,
/// `line=` with whether it has a first baseline, and which.
/// Boxes that are not laid have a line `other=` with their order, bits and row numbers 0 to 2.
pub fn lines(outcome: &Outcome) -> Vec<String> {
    match outcome {
        Outcome::Refused { number, place } => vec![format!("answer={number},{place}")],
        Outcome::Size(width, height) => vec![format!("size={}", list(&[*width, *height]))],
        Outcome::Laid { rows, candidates } => {
            let mut lines = vec![format!("answer=0,{}", candidates.len())];
            lines.extend(rows.iter().enumerate().flat_map(|(node, row)| row_lines(node, row)));
            lines.extend(candidates.iter().map(|entry| {
                let places = list(&[entry.start, entry.end, entry.line]);
                format!("cand={},{},{places}", entry.node, entry.order)
            }));
            lines
        }
    }
}

fn row_lines(node: usize, row: &Row) -> Vec<String> {
    let Row { numbers, order, bits } = row;
    if bits & LAID == 0 {
        return vec![format!("other={node},{order},{bits},{}", list(&numbers[..3]))];
    }
    vec![
        format!("box={node},{order},{}", list(&numbers[..4])),
        format!("sets={node},{},{}", list(&numbers[4..8]), (bits & THROUGH != 0) as u8),
        format!("asked={node},{},{}", bits >> 3 & 63, list(&numbers[8..15])),
        format!("line={node},{},{}", (bits & LINED != 0) as u8, list(&numbers[15..])),
    ]
}

fn list(numbers: &[f32]) -> String {
    let texts: Vec<String> = numbers.iter().map(|number| bits(number + 0.0)).collect();
    texts.join(",")
}

fn bits(number: f32) -> String {
    format!("{:08x}", number.to_bits())
}
