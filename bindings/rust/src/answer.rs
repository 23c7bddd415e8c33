//! An answer of the core, unpacked.
//!
//! Its low byte is 0, and the rest is the value; or it is a refusal's number,
//! and the rest is the place.

use std::ops::Range;

use crate::{Changed, Reason, Refusal, Storm};

pub fn value(answer: u64) -> Result<u64, Refusal> {
    let rest = answer >> 8;
    match Reason::from_number(answer as u8) {
        None => Ok(rest),
        Some(reason) => Err(Refusal {
            reason,
            place: rest as usize,
        }),
    }
}

/// No value.
pub fn done(answer: u64) -> Result<(), Refusal> {
    value(answer).map(drop)
}

/// A minute or a place: either is below 2^32.
pub fn narrow(answer: u64) -> Result<u32, Refusal> {
    value(answer).map(|value| value as u32)
}

/// A length, or an offset in the text.
pub fn length(answer: u64) -> Result<usize, Refusal> {
    value(answer).map(|value| value as usize)
}

/// Was the place there?
pub fn was_there(answer: u64) -> Result<bool, Refusal> {
    value(answer).map(|value| value != 0)
}

pub fn changed(answer: u64) -> Result<Changed, Refusal> {
    value(answer).map(Changed::packed)
}

/// A part of the text: 24 bits of start, then its length.
pub fn part(answer: u64) -> Result<Range<usize>, Refusal> {
    value(answer).map(|value| {
        let start = (value & 0xFF_FFFF) as usize;
        start..start + (value >> 24) as usize
    })
}

/// Three bytes, the first lowest; 0 for none.
pub fn bbb(answer: u64) -> Result<Option<[u8; 3]>, Refusal> {
    value(answer).map(|value| {
        let [a, b, c, ..] = value.to_le_bytes();
        (value != 0).then_some([a, b, c])
    })
}

/// 0 for none.
pub fn storm(answer: u64) -> Result<Option<Storm>, Refusal> {
    value(answer).map(Storm::packed)
}

#[cfg(test)]
mod tests {
    use super::*;

    #[test]
    fn a_refusal_has_its_place() {
        let refusal = value(6 + 256 * 16_383).unwrap_err();
        assert_eq!(refusal.reason, Reason::WrongBlock);
        assert_eq!(refusal.place, 16_383);
    }

    #[test]
    fn a_number_without_a_name_is_a_refusal() {
        let refusal = value(200 + 256 * 7).unwrap_err();
        assert_eq!(refusal.reason, Reason::Unknown(200));
        assert_eq!(refusal.place, 7);
    }

    #[test]
    fn a_part_has_start_and_length() {
        let answer = 256 * (16_000 + 16_777_216 * 384);
        assert_eq!(part(answer), Ok(16_000..16_384));
    }

    #[test]
    fn a_storm_shows_as_it_stands() {
        let answer = 256 * (2 + 256 * 4 + 65_536 * 90 + 16_777_216 * 7);
        assert_eq!(storm(answer).unwrap().unwrap().to_string(), "SL900007");
        assert_eq!(storm(0), Ok(None));
    }

    #[test]
    fn a_bbb_is_three_bytes() {
        assert_eq!(bbb(0), Ok(None));
        assert_eq!(bbb(0x4143_4300), Ok(Some(*b"CCA")));
    }
}
