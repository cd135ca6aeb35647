//! What a page comes to: 01's result rows and candidates, or a size, or a refusal.

pub const LAID: u32 = 1 << 0;
pub const THROUGH: u32 = 1 << 1;
pub const OUT: u32 = 1 << 2;
pub const HEIGHT_ASKED: u32 = 1 << 3;
pub const PROBED: u32 = 1 << 4;
pub const PROBE_HEIGHT: u32 = 1 << 7;
pub const BASIS: u32 = 1 << 8;
pub const LINED: u32 = 1 << 9;

/// Numbers of refusals.
pub const BAD_STYLE: u32 = 3;
const TOO_LARGE: u32 = 8;
/// Every place, size, margin, basis and baseline has to stay below this magnitude.
const LIMIT: f32 = 16_777_216.0;

/// Equality is that of numbers: the two zeros are equal, and a NaN is equal to nothing.
#[derive(Copy, Clone, PartialEq, Default)]
pub struct Row {
    pub numbers: [f32; 16],
    pub order: u32,
    pub bits: u32,
}

impl Row {
    /// block.rs has places, sizes, sets, baselines, order, and bits 0 to 2 and 9.
    fn keep_shared(&mut self) {
        self.numbers[8..15].fill(0.0);
        self.bits &= LAID | THROUGH | OUT | LINED;
    }
    fn too_large(&self) -> bool {
        self.numbers.iter().any(|number| too_large(*number))
    }
}

#[derive(Copy, Clone, PartialEq)]
pub struct Candidate {
    pub node: u32,
    pub order: u32,
    pub start: f32,
    pub end: f32,
    pub line: f32,
}

#[derive(Clone, PartialEq)]
pub enum Outcome {
    Refused { number: u32, place: u32 },
    Size(f32, f32),
    Laid { rows: Vec<Row>, candidates: Vec<Candidate> },
}

impl Outcome {
    /// A result that is too large is a refusal with 8, at the lowest such node.
    pub fn limited(self) -> Outcome {
        let place = match &self {
            Outcome::Refused { .. } => None,
            Outcome::Size(width, height) => (too_large(*width) || too_large(*height)).then_some(0),
            Outcome::Laid { rows, .. } => rows.iter().position(Row::too_large),
        };
        match place {
            Some(place) => Outcome::Refused { number: TOO_LARGE, place: place as u32 },
            None => self,
        }
    }

    pub fn refused(&self) -> bool {
        matches!(self, Outcome::Refused { .. })
    }

    /// Without what block.rs does not answer.
    pub fn shared(mut self) -> Outcome {
        if let Outcome::Laid { rows, .. } = &mut self {
            rows.iter_mut().for_each(Row::keep_shared);
        }
        self
    }
}

fn too_large(number: f32) -> bool {
    number.is_nan() || number.abs() >= LIMIT
}
