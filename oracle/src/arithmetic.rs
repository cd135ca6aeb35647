//! 01's arithmetic: larger, smaller, clamp, and margin sets.

pub fn larger(a: f32, b: f32) -> f32 {
    if a < b {
        b
    } else {
        a
    }
}

pub fn smaller(a: f32, b: f32) -> f32 {
    if b < a {
        b
    } else {
        a
    }
}

/// An absent limit does nothing.
pub fn clamp(number: f32, min: Option<f32>, max: Option<f32>) -> f32 {
    let number = max.map_or(number, |max| smaller(number, max));
    min.map_or(number, |min| larger(number, min))
}

/// The largest positive and the smallest negative of some margins, each 0 if there is none.
#[derive(Copy, Clone)]
pub struct Set {
    pub positive: f32,
    pub negative: f32,
}

impl Set {
    pub const EMPTY: Set = Set { positive: 0.0, negative: 0.0 };

    pub fn of(margin: f32) -> Set {
        Set { positive: larger(0.0, margin), negative: smaller(0.0, margin) }
    }
    pub fn join(self, other: Set) -> Set {
        Set {
            positive: larger(self.positive, other.positive),
            negative: smaller(self.negative, other.negative),
        }
    }
    pub fn sum(self) -> f32 {
        self.positive + self.negative
    }
}
