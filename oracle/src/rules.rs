//! The rules by which block.rs parts from 01. Their numbers are those of docs/DIFFERENCES.md.

/// One line makes a rule: its number, its name in the code, its name in print.
macro_rules! rules {
    ($($number:literal $rule:ident $name:literal)*) => {
        #[derive(Copy, Clone, PartialEq, Eq)]
        pub enum Rule { $($rule = $number),* }

        impl Rule {
            pub const LIST: &'static [Rule] = &[$(Rule::$rule),*];

            pub fn name(self) -> &'static str {
                match self { $(Rule::$rule => $name),* }
            }
        }
    };
}

rules! {
    1 InnerRaised "inner-raised"
    2 StretchRaised "stretch-raised"
    3 XLtr "x-ltr"
    4 XRtl "x-rtl"
    5 XRtlContext "x-rtl-context"
    6 FreeSpace "free-space"
    7 NextAfterRelative "next-after-relative"
    8 LineAfterThrough "line-after-through"
    9 OpenMarginsAtTop "open-margins-at-top"
    10 ContentSum "content-sum"
    11 AskedNotRaised "asked-not-raised"
    12 ChildrenAskedSizes "children-asked-sizes"
    13 StyledHeightBasis "styled-height-basis"
    14 RatioHeightAsIs "ratio-height-as-is"
    15 NumbersOnce "numbers-once"
    16 LineUnmoved "line-unmoved"
    17 ScrolledLine "scrolled-line"
}

impl Rule {
    pub fn number(self) -> u32 {
        self as u32
    }
}

/// A set of rules that are turned to the Rust's side.
#[derive(Copy, Clone, PartialEq, Eq, PartialOrd, Ord)]
pub struct Rules(u64);

impl Rules {
    pub const NONE: Rules = Rules(0);

    pub fn all() -> Rules {
        Rule::LIST.iter().fold(Rules::NONE, |rules, rule| rules.with(*rule))
    }
    pub fn with(self, rule: Rule) -> Rules {
        Rules(self.0 | 1 << rule.number())
    }
    pub fn without(self, rule: Rule) -> Rules {
        Rules(self.0 & !(1 << rule.number()))
    }
    pub fn has(self, rule: Rule) -> bool {
        self.0 & 1 << rule.number() != 0
    }
    pub fn list(self) -> impl Iterator<Item = Rule> {
        Rule::LIST.iter().copied().filter(move |rule| self.has(*rule))
    }

    /// From numbers with commas between them, or `all`, or `none`.
    pub fn parse(text: &str) -> Option<Rules> {
        match text {
            "all" => Some(Rules::all()),
            "none" => Some(Rules::NONE),
            numbers => numbers.split(',').try_fold(Rules::NONE, |rules, number| {
                let rule = Rule::LIST.iter().find(|rule| rule.number().to_string() == number)?;
                Some(rules.with(*rule))
            }),
        }
    }
}

impl std::fmt::Display for Rules {
    fn fmt(&self, out: &mut std::fmt::Formatter<'_>) -> std::fmt::Result {
        let numbers: Vec<String> = self.list().map(|rule| rule.number().to_string()).collect();
        out.write_str(&numbers.join("+"))
    }
}
