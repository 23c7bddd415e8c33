//! Elements of place code blocks, right ones.

use super::Rng;

/// How many prefixes there are; the last is `ZZZ`.
pub const PREFIXES: usize = 26 * 26 * 2;

/// Numbers of one prefix, which is a number itself: `AAC` is 0.
#[derive(Clone, Copy, Debug)]
pub struct Element {
    pub prefix: usize,
    pub first: usize,
    pub last: usize,
}

impl Element {
    pub fn single(prefix: usize, number: usize) -> Self {
        Element::range(prefix, number, number)
    }

    /// A range, or a single where both numbers are the same.
    pub fn range(prefix: usize, first: usize, last: usize) -> Self {
        Element {
            prefix,
            first,
            last,
        }
    }

    /// Do both cover some place?
    pub fn shares(self, other: Self) -> bool {
        self.prefix == other.prefix && self.first <= other.last && other.first <= self.last
    }

    /// An element that covers some place of this one.
    pub fn repeated(self, rng: &mut Rng) -> Self {
        let Element {
            prefix,
            first,
            last,
        } = self;
        let more = rng.within(1, 6);
        match rng.below(7) {
            0 => Element::single(prefix, first),
            1 => Element::single(prefix, last),
            2 => Element::single(prefix, rng.within(first, last)),
            3 if (1..999).contains(&last) => Element::range(prefix, last, (last + more).min(999)),
            4 if first > 1 => Element::range(prefix, first.saturating_sub(more).max(1), first),
            5 if first > 1 => Element::range(prefix, 1, last),
            _ => self,
        }
    }

    /// An element that shares no place with this one, but nearly does.
    pub fn beside(self, rng: &mut Rng) -> Self {
        let Element {
            prefix,
            first,
            last,
        } = self;
        match rng.below(6) {
            0 if last < 999 => Element::single(prefix, last + 1),
            1 if last < 998 => Element::range(prefix, last + 1, last + 2),
            2 if first > 0 => Element::single(prefix, first - 1),
            3 if first > 2 => Element::range(prefix, first - 2, first - 1),
            4 if first > 0 => Element::single(prefix, 0),
            _ => Element::range((prefix + 1) % PREFIXES, first, last),
        }
    }

    /// Writes it without its prefix, 000 in both ways.
    pub fn push_numbers(self, rng: &mut Rng, out: &mut Vec<u8>) {
        let Element { first, last, .. } = self;
        if first == 0 && rng.once_in(2) {
            out.extend(b"ALL-");
        } else if first == last {
            out.extend(format!("{first:03}-").bytes());
        } else {
            out.extend(format!("{first:03}>{last:03}-").bytes());
        }
    }
}

/// Writes a prefix.
pub fn push_prefix(prefix: usize, out: &mut Vec<u8>) {
    let letters = [prefix / 52, prefix / 2 % 26].map(|letter| b'A' + letter as u8);
    out.extend(letters);
    out.push(b"CZ"[prefix % 2]);
}
