//! Numbered refusals.

/// Why a call was refused, and where in the text.
#[derive(Clone, Copy, Debug, PartialEq, Eq)]
pub struct Refusal {
    pub number: u8,
    pub place: usize,
}

pub const LENGTH: u8 = 1;
pub const TEXT: u8 = 2;
pub const LINE_1: u8 = 3;
pub const LINE_2: u8 = 4;
pub const TIME: u8 = 5;
pub const BLOCK: u8 = 6;
pub const NO_SEGMENT: u8 = 7;
pub const NO_END: u8 = 8;
pub const NINTH_SEGMENT: u8 = 9;
pub const STORM: u8 = 10;
pub const TOO_MANY_PLACES: u8 = 11;
pub const NOT_SOUND: u8 = 12;
pub const NO_DRAFT: u8 = 13;
pub const FOUR_OPEN: u8 = 14;
pub const NO_SUCH_SEGMENT: u8 = 15;
pub const NOT_TAKEN: u8 = 16;
pub const TAKEN_ALREADY: u8 = 17;
pub const TWO_TAKEN: u8 = 18;
pub const FULL: u8 = 19;
pub const ONLY_PLACE: u8 = 20;
pub const STALE: u8 = 21;
pub const NO_STEP: u8 = 22;
pub const SHORT_OUTPUT: u8 = 23;
pub const OUT_OF_RANGE: u8 = 24;
pub const PLACE_TWICE: u8 = 25;
pub const NOT_BELONGING: u8 = 27;

impl Refusal {
    /// A refusal at a place of the text.
    pub const fn at(number: u8, place: usize) -> Self {
        Refusal { number, place }
    }

    /// A refusal without a place.
    pub const fn plain(number: u8) -> Self {
        Refusal { number, place: 0 }
    }
}
