//! Line 1, the WMO heading, and line 2, the AWIPS identifier.

use super::calendar::DayTime;
use super::lines::{are_capitals, are_digits};

/// The fields of line 1 as they stand in the text.
#[derive(Clone, Copy, Debug, PartialEq, Eq)]
pub struct Heading {
    pub ttaaii: [u8; 6],
    pub cccc: [u8; 4],
    pub ddhhmm: [u8; 6],
    pub bbb: Option<[u8; 3]>,
    /// The day and time.
    pub time: DayTime,
}

impl Heading {
    /// `TTAAii CCCC DDHHMM`, and a space and BBB if it has one.
    pub fn parse(line: &[u8]) -> Option<Self> {
        let (ttaaii, rest) = line.split_first_chunk::<6>()?;
        let (cccc, rest) = rest.strip_prefix(b" ")?.split_first_chunk::<4>()?;
        let (ddhhmm, rest) = rest.strip_prefix(b" ")?.split_first_chunk::<6>()?;
        if !are_capitals(&ttaaii[..4]) || !are_digits(&ttaaii[4..]) || !are_capitals(cccc) {
            return None;
        }
        Some(Heading {
            ttaaii: *ttaaii,
            cccc: *cccc,
            ddhhmm: *ddhhmm,
            bbb: parse_bbb(rest)?,
            time: DayTime::parse(ddhhmm)?,
        })
    }
}

/// What follows DDHHMM: nothing, or a space and a right BBB.
fn parse_bbb(rest: &[u8]) -> Option<Option<[u8; 3]>> {
    match *rest {
        [] => Some(None),
        [b' ', a, b, c @ (b'A'..=b'X' | b'Z')] if a == b && matches!(a, b'A' | b'C' | b'R') => {
            Some(Some([a, b, c]))
        }
        _ => None,
    }
}

/// The six bytes of line 2: capitals and digits, the last one or two of them
/// perhaps spaces.
pub fn parse_identifier(line: &[u8]) -> Option<[u8; 6]> {
    let identifier: [u8; 6] = line.try_into().ok()?;
    let used = match identifier {
        [.., b' ', b' '] => 4,
        [.., b' '] => 5,
        _ => 6,
    };
    let is_named = |b: &u8| b.is_ascii_uppercase() || b.is_ascii_digit();
    identifier[..used]
        .iter()
        .all(is_named)
        .then_some(identifier)
}
