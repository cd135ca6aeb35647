//! Runs pages through the crate's block.rs, through 01's plain reading and through our archive, and
//! says where they part. oracle/run and oracle/show call it.
mod archive;
mod arithmetic;
mod compare;
mod crate_tree;
mod file;
mod make;
mod outcome;
mod page;
mod random;
mod reading;
mod rules;
mod shrink;
mod tally;

use archive::Archive;
use compare::{judge, Fault, Verdict};
use outcome::Outcome;
use page::{Ask, Page};
use random::Random;
use rules::Rules;
use std::process::ExitCode;
use tally::{Odd, Tally};

const USAGE: &str = "oracle compare COUNT SEED PROGRAM..
oracle show FILE layout|size|width RULES PROGRAM..
COUNT and SEED are whole numbers. RULES is numbers with commas between them, or all, or none. PROGRAM is
that of calls.c, after an emulator where one is needed.";

fn main() -> ExitCode {
    let arguments: Vec<String> = std::env::args().skip(1).collect();
    let done = match arguments.iter().map(String::as_str).collect::<Vec<_>>().as_slice() {
        ["compare", count, seed, _, ..] => match (count.parse(), seed.parse()) {
            (Ok(count), Ok(seed)) => compare_pages(count, seed, &arguments[3..]),
            _ => return usage(),
        },
        ["show", name, ask, rules, _, ..] => match (parse_ask(ask), Rules::parse(rules)) {
            (Some(ask), Some(rules)) => show(name, ask, rules, &arguments[4..]),
            _ => return usage(),
        },
        _ => return usage(),
    };
    done.unwrap_or_else(|error| {
        eprintln!("oracle: {error}");
        ExitCode::from(2)
    })
}

fn usage() -> ExitCode {
    eprintln!("{USAGE}");
    ExitCode::from(2)
}

fn parse_ask(text: &str) -> Option<Ask> {
    match text {
        "layout" => Some(Ask::Layout),
        "size" => Some(Ask::Size),
        "width" => Some(Ask::Width),
        _ => None,
    }
}

/// Fails if there is a page that nothing explains.
fn compare_pages(count: u64, seed: u64, program: &[String]) -> std::io::Result<ExitCode> {
    let mut archive = Archive::start(program)?;
    let mut tally = Tally::default();
    for number in 0..count {
        let (page, figures) = make::page(&mut Random::for_page(seed, number));
        let verdict = judge(&page, &mut archive)?;
        tally.count(number, page, figures, verdict);
    }
    for odd in std::mem::take(&mut tally.odd) {
        print_odd(odd, &mut archive)?;
    }
    print!("{}", tally.report(seed));
    archive.stop();
    Ok(if tally.unexplained() == 0 { ExitCode::SUCCESS } else { ExitCode::FAILURE })
}

/// An unexplained page, made as small as it gets, and how the two answers part that should agree.
fn print_odd(odd: Odd, archive: &mut Archive) -> std::io::Result<()> {
    let nodes = odd.page.nodes();
    let page = shrink::shrink(odd.page, |page| has_fault(page, odd.fault, archive));
    let asked = match page.question.ask {
        Ask::Layout => "layout",
        Ask::Size => "size",
        Ask::Width => "width",
    };
    println!("UNEXPLAINED: page {}, {nodes} nodes, here {}; asked: {asked}", odd.number, page.nodes());
    print!("{}", file::write(&page));
    match odd.fault {
        Fault::Archive => {
            print_parting("01 ", &reading::plain(&page), "archive ", &archive.answer(&page)?);
        }
        Fault::Crate => {
            let turned = compare::turned(&page, Rules::all());
            print_parting("all rules ", &turned, "block.rs ", &crate_tree::answer(&page));
        }
    }
    println!();
    Ok(())
}

fn has_fault(page: &Page, fault: Fault, archive: &mut Archive) -> bool {
    matches!(judge(page, archive), Ok(Verdict::Unexplained(found)) if found == fault)
}

/// The lines in which two answers part, each with a name before it.
fn print_parting(name: &str, answer: &Outcome, other_name: &str, other: &Outcome) {
    let (lines, other_lines) = (file::lines(answer), file::lines(other));
    for line in lines.iter().filter(|line| !other_lines.contains(line)) {
        println!("{name}{line}");
    }
    for line in other_lines.iter().filter(|line| !lines.contains(line)) {
        println!("{other_name}{line}");
    }
}

/// A page file: the archive's answer, where block.rs parts from it and by which rules, and where the
/// reading with the rules given parts from it.
fn show(name: &str, ask: Ask, rules: Rules, program: &[String]) -> std::io::Result<ExitCode> {
    let page = read_page(name, ask)?;
    let mut archive = Archive::start(program)?;
    let ours = archive.answer(&page)?;
    for line in file::lines(&ours) {
        println!("{line}");
    }
    let verdict = judge(&page, &mut archive)?;
    archive.stop();
    if ours.refused() {
        return Ok(ExitCode::SUCCESS);
    }
    let ours = ours.shared();
    println!("\nwhere block.rs parts from it:");
    print_parting("01 ", &ours, "block.rs ", &crate_tree::answer(&page));
    match verdict {
        Verdict::Differs(rules) => println!("rules: {rules}"),
        Verdict::Unexplained(_) => println!("UNEXPLAINED"),
        Verdict::Equal | Verdict::Refused(_) => println!("nowhere"),
    }
    if rules != Rules::NONE {
        println!("\nwhere the reading with rules {rules} parts from it:");
        print_parting("01 ", &ours, "reading ", &compare::turned(&page, rules));
    }
    Ok(ExitCode::SUCCESS)
}

fn read_page(name: &str, ask: Ask) -> std::io::Result<Page> {
    let text = std::fs::read_to_string(name)?;
    file::read(&text, ask).map_err(|line| std::io::Error::other(format!("{name}: line {line} is bad")))
}
