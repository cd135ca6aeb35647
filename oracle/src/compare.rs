//! The verdict on one page.
use crate::archive::Archive;
use crate::outcome::Outcome;
use crate::page::Page;
use crate::rules::{Rule, Rules};
use crate::{crate_tree, reading};

pub enum Verdict {
    /// 01 refuses the page with this number. The archive does so too, at the same node.
    Refused(u32),
    /// block.rs gives the answer of 01.
    Equal,
    /// block.rs gives another answer, and these rules are why.
    Differs(Rules),
    Unexplained(Fault),
}

#[derive(Copy, Clone, PartialEq, Eq)]
pub enum Fault {
    /// The archive does not give the answer of 01's plain reading.
    Archive,
    /// block.rs does not give the answer of the reading with all rules.
    Crate,
}

pub fn judge(page: &Page, archive: &mut Archive) -> std::io::Result<Verdict> {
    let plain = reading::plain(page);
    if archive.answer(page)? != plain {
        return Ok(Verdict::Unexplained(Fault::Archive));
    }
    if let Outcome::Refused { number, .. } = plain {
        return Ok(Verdict::Refused(number));
    }
    let from_crate = crate_tree::answer(page);
    if turned(page, Rules::all()) != from_crate {
        return Ok(Verdict::Unexplained(Fault::Crate));
    }
    if plain.shared() == from_crate {
        return Ok(Verdict::Equal);
    }
    Ok(Verdict::Differs(needed(page, &from_crate)))
}

/// What block.rs would answer if these rules were all that it has otherwise.
pub fn turned(page: &Page, rules: Rules) -> Outcome {
    reading::answer(page, rules).shared()
}

/// The rules that the page needs: none of them can be left out. The last are tried first.
fn needed(page: &Page, from_crate: &Outcome) -> Rules {
    Rule::LIST.iter().rev().fold(Rules::all(), |rules, rule| {
        let fewer = rules.without(*rule);
        if turned(page, fewer) == *from_crate {
            fewer
        } else {
            rules
        }
    })
}
