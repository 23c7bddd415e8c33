//! Refusals: why a call was not done, and where in the text.

use std::error::Error;
use std::fmt;

/// One table of the reasons: name, number and message. The enum and its
/// functions are made of it, so that nothing is listed twice.
macro_rules! reasons {
    ($($(#[$doc:meta])* $name:ident = $number:literal: $message:literal,)*) => {
        /// Why a call was refused: the rows of the core's table, with its numbers.
        ///
        /// A newer core may refuse for reasons that this crate has no name for, so
        /// a `match` on it ends with `_`.
        ///
        /// ```
        /// use hollgrimsa::Reason;
        ///
        /// assert_eq!(Reason::NotSound.number(), 12);
        /// assert_eq!(Reason::from_number(24), Some(Reason::OutOfRange));
        /// assert_eq!(Reason::from_number(99), Some(Reason::Unknown(99)));
        /// assert_eq!(Reason::from_number(0), None);
        /// ```
        #[derive(Clone, Copy, Debug, PartialEq, Eq, Hash, PartialOrd, Ord)]
        #[non_exhaustive]
        pub enum Reason {
            $($(#[$doc])* $name,)*
            /// A number that this crate has no name for: the core is newer.
            Unknown(u8),
        }

        impl Reason {
            /// The reasons that have a name, by their numbers, ascending. Not
            /// every number between has one.
            pub const ALL: &'static [Reason] = &[$(Reason::$name),*];

            /// Its number in the core's table.
            pub const fn number(self) -> u8 {
                match self {
                    $(Reason::$name => $number,)*
                    Reason::Unknown(number) => number,
                }
            }

            /// The reason with this number; none for 0, which is no refusal's.
            pub const fn from_number(number: u8) -> Option<Self> {
                match number {
                    0 => None,
                    $($number => Some(Reason::$name),)*
                    _ => Some(Reason::Unknown(number)),
                }
            }

            /// What is wrong, in a few words.
            pub const fn message(self) -> &'static str {
                match self {
                    $(Reason::$name => $message,)*
                    Reason::Unknown(_) => "refused for a reason that this crate has no name for",
                }
            }
        }
    };
}

reasons! {
    /// 1: the text's or the book's length is wrong.
    WrongLength = 1: "the text's or the book's length is wrong",
    /// 2: a byte, a line's length or the last line's end is wrong.
    WrongText = 2: "a byte, a line's length or the last line's end is wrong",
    /// 3: line 1, the heading, is wrong.
    WrongHeading = 3: "line 1 is no heading",
    /// 4: line 2, the identifier, is wrong.
    WrongIdentifier = 4: "line 2 is no identifier",
    /// 5: the year, the month or the issue's day is wrong, or a purge has no
    /// minute.
    WrongTime = 5: "the year, month or day is wrong, or a purge has no minute",
    /// 6: a place code block is wrong.
    WrongBlock = 6: "a place code block is wrong",
    /// 7: there is no segment.
    NoSegment = 7: "there is no segment",
    /// 8: a segment has no `$$`.
    NoEnd = 8: "a segment has no `$$`",
    /// 9: there is a ninth segment.
    NinthSegment = 9: "there is a ninth segment",
    /// 10: the storm identifier is wrong.
    WrongStorm = 10: "the storm identifier is wrong",
    /// 11: a segment has more than 120 places.
    TooManyPlaces = 11: "a segment has more than 120 places",
    /// 12: the book is not sound.
    NotSound = 12: "the book is not sound",
    /// 13: the draft is not one of 1 to 4, or is not open.
    NoDraft = 13: "there is no such open draft",
    /// 14: all four drafts are open.
    AllOpen = 14: "all four drafts are open",
    /// 15: there is no such segment.
    NoSuchSegment = 15: "there is no such segment",
    /// 16: the draft has not taken the segment.
    NotTaken = 16: "the draft has not taken the segment",
    /// 17: the draft has taken the segment already.
    TakenAlready = 17: "the draft has taken the segment already",
    /// 18: the draft has taken two segments.
    TwoTaken = 18: "the draft has taken two segments",
    /// 19: a place that is not there is added to 120.
    SegmentFull = 19: "the segment has 120 places already",
    /// 20: the only place would be removed.
    OnlyPlace = 20: "the segment's only place cannot be removed",
    /// 21: a stale draft is committed.
    StaleDraft = 21: "the draft is stale",
    /// 22: there is no step to undo.
    NoStep = 22: "there is no step to undo",
    /// 23: the output is shorter than what is to be written.
    OutputShort = 23: "the output is shorter than what is to be written",
    /// 24: a place, DD, HH, MM or index handed in is out of range.
    OutOfRange = 24: "a place, day, hour, minute or index is out of range",
    /// 25: two elements of a block cover one place. The offset is the start of
    /// the first element that covers a place already covered.
    PlaceTwice = 25: "two elements of a place code block cover one place",
    /// 27: the text does not belong to the book: its issue or its number of
    /// segments is another.
    NotBelonging = 27: "the text does not belong to the book",
}

impl fmt::Display for Reason {
    fn fmt(&self, f: &mut fmt::Formatter<'_>) -> fmt::Result {
        f.write_str(self.message())
    }
}

/// A refused call. Nothing that was lent to it has changed.
///
/// ```
/// use hollgrimsa::{Book, Reason};
///
/// let refusal = Book::make(b"FPUS51 KXYZ 240822\nZFP?YZ\n", 2002, 4).unwrap_err();
/// assert_eq!(refusal.reason, Reason::WrongIdentifier);
/// assert_eq!(refusal.place, 19);
/// assert_eq!(refusal.to_string(), "line 2 is no identifier (refusal 4, at byte 19)");
/// ```
#[derive(Clone, Copy, Debug, PartialEq, Eq, Hash)]
pub struct Refusal {
    /// Why.
    pub reason: Reason,
    /// The offset in the text, 0 where the reason has none: see
    /// [`offset`](Refusal::offset).
    pub place: usize,
}

impl Refusal {
    /// The offset in the text that the refusal names, if it names one. It may
    /// be the text's length, where something is missing at its end.
    ///
    /// ```
    /// use hollgrimsa::{Book, Reason};
    ///
    /// let text = b"FPUS51 KXYZ 311300\nZFPXYZ\nMDC003-010000-\n$$\n";
    /// let mut book = Book::make(text, 2003, 1)?;
    /// let mut draft = book.open()?;
    /// draft.take(1)?;
    /// let refusal = draft.set_purge(1, 30, 12, 0).unwrap_err();
    /// assert_eq!(refusal.reason, Reason::WrongTime);
    /// assert_eq!(refusal.offset(), None);
    ///
    /// let text = b"FPUS51 KXYZ 311300\nZFPXYZ\nMDC003-301200-\n$$\n";
    /// assert_eq!(Book::make(text, 2003, 1).unwrap_err().offset(), Some(33));
    /// # Ok::<(), hollgrimsa::Refusal>(())
    /// ```
    pub const fn offset(&self) -> Option<usize> {
        match self.reason {
            Reason::WrongText
            | Reason::WrongIdentifier
            | Reason::WrongBlock
            | Reason::NoSegment
            | Reason::NoEnd
            | Reason::NinthSegment
            | Reason::WrongStorm
            | Reason::TooManyPlaces
            | Reason::PlaceTwice => Some(self.place),
            // A year, a month, an issue's day or a purge that was handed in
            // stands nowhere in a text; a block's purge never at its front.
            Reason::WrongTime if self.place != 0 => Some(self.place),
            _ => None,
        }
    }
}

impl fmt::Display for Refusal {
    fn fmt(&self, f: &mut fmt::Formatter<'_>) -> fmt::Result {
        write!(f, "{} (refusal {}", self.reason, self.reason.number())?;
        if let Some(offset) = self.offset() {
            write!(f, ", at byte {offset}")?;
        }
        f.write_str(")")
    }
}

impl Error for Refusal {}

#[cfg(test)]
mod tests {
    use super::*;

    #[test]
    fn numbers_go_both_ways() {
        for &reason in Reason::ALL {
            assert_eq!(Reason::from_number(reason.number()), Some(reason));
        }
        assert!(Reason::ALL.is_sorted_by_key(|reason| reason.number()));
        assert_eq!(Reason::from_number(0), None);
    }

    #[test]
    fn an_unknown_number_is_kept() {
        let named: Vec<u8> = Reason::ALL.iter().map(|reason| reason.number()).collect();
        for number in (1..=u8::MAX).filter(|number| !named.contains(number)) {
            assert_eq!(Reason::from_number(number), Some(Reason::Unknown(number)));
            assert_eq!(Reason::Unknown(number).number(), number);
        }
    }

    #[test]
    fn a_time_that_was_handed_in_names_no_byte() {
        let refusal = Refusal {
            reason: Reason::WrongTime,
            place: 0,
        };
        assert!(refusal.to_string().ends_with("(refusal 5)"));
    }
}
