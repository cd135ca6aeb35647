//! Counts of a run, and how they are printed.
use crate::compare::{Fault, Verdict};
use crate::make::Figures;
use crate::page::{Ask, Page};
use crate::rules::{Rule, Rules};
use std::collections::BTreeMap;
use std::fmt::Display;

/// How many unexplained pages are kept to be printed.
const KEPT: usize = 3;
/// How many sets of rules are printed.
const SETS: usize = 10;

type Counts = [u64; Figures::LIST.len()];

/// A page that nothing explains, with its number in the run.
pub struct Odd {
    pub number: u64,
    pub page: Page,
    pub fault: Fault,
}

#[derive(Default)]
pub struct Tally {
    pages: Counts,
    /// By the number of the refusal.
    refused: BTreeMap<u32, Counts>,
    equal: Counts,
    unexplained: Counts,
    sets: BTreeMap<Rules, Counts>,
    nodes: usize,
    layouts: u64,
    sizes: u64,
    widths: u64,
    /// The smallest of the unexplained pages, smallest first.
    pub odd: Vec<Odd>,
}

impl Tally {
    pub fn count(&mut self, number: u64, page: Page, figures: Figures, verdict: Verdict) {
        let column = figures as usize;
        self.pages[column] += 1;
        self.nodes += page.nodes();
        match page.question.ask {
            Ask::Layout => self.layouts += 1,
            Ask::Size => self.sizes += 1,
            Ask::Width => self.widths += 1,
        }
        match verdict {
            Verdict::Refused(number) => self.refused.entry(number).or_default()[column] += 1,
            Verdict::Equal => self.equal[column] += 1,
            Verdict::Differs(rules) => self.sets.entry(rules).or_default()[column] += 1,
            Verdict::Unexplained(fault) => {
                self.unexplained[column] += 1;
                self.keep(Odd { number, page, fault });
            }
        }
    }

    fn keep(&mut self, odd: Odd) {
        self.odd.push(odd);
        self.odd.sort_by_key(|odd| odd.page.nodes());
        self.odd.truncate(KEPT);
    }

    pub fn unexplained(&self) -> u64 {
        self.unexplained.iter().sum()
    }

    pub fn report(&self, seed: u64) -> String {
        let Tally { nodes, layouts, sizes, widths, .. } = self;
        let mut lines = vec![
            format!("seed {seed}: {} pages with {nodes} nodes in all", self.pages.iter().sum::<u64>()),
            format!("asked: {layouts} layouts, {sizes} sizes, {widths} widths"),
            String::new(),
            line("numbers", "all", Figures::LIST.map(Figures::name)),
            counts_line("pages", &self.pages),
        ];
        lines.extend(self.refused.iter().map(refused_line));
        lines.extend([
            counts_line("equal", &self.equal),
            counts_line("other answer, explained", &total(self.sets.values())),
            counts_line("unexplained", &self.unexplained),
            String::new(),
            "pages that need a rule (docs/DIFFERENCES.md):".to_string(),
        ]);
        lines.extend(Rule::LIST.iter().map(|rule| self.rule_line(*rule)));
        lines.push("\nby all the rules that a page needs, the most frequent first:".to_string());
        lines.extend(self.set_lines());
        lines.join("\n") + "\n"
    }

    fn rule_line(&self, rule: Rule) -> String {
        let needs = self.sets.iter().filter(|(rules, _)| rules.has(rule)).map(|(_, counts)| counts);
        counts_line(&format!("{:2} {}", rule.number(), rule.name()), &total(needs))
    }

    fn set_lines(&self) -> Vec<String> {
        let mut sets: Vec<(&Rules, &Counts)> = self.sets.iter().collect();
        sets.sort_by_key(|(_, counts)| std::cmp::Reverse(counts.iter().sum::<u64>()));
        let rest = sets.split_off(sets.len().min(SETS));
        let mut lines: Vec<String> =
            sets.iter().map(|(rules, counts)| counts_line(&rules.to_string(), counts)).collect();
        let others = total(rest.iter().map(|(_, counts)| *counts));
        lines.push(counts_line(&format!("{} other sets", rest.len()), &others));
        lines
    }
}

fn total<'a>(list: impl Iterator<Item = &'a Counts>) -> Counts {
    list.fold(Counts::default(), |mut total, counts| {
        total.iter_mut().zip(counts).for_each(|(total, count)| *total += count);
        total
    })
}

fn refused_line((number, counts): (&u32, &Counts)) -> String {
    counts_line(&format!("refused with {number}"), counts)
}

fn counts_line(name: &str, counts: &Counts) -> String {
    line(name, counts.iter().sum::<u64>(), *counts)
}

fn line<T: Display, const N: usize>(name: &str, all: impl Display, columns: [T; N]) -> String {
    columns.iter().fold(format!("{name:30}{all:>10}"), |line, column| format!("{line}{column:>10}"))
}
