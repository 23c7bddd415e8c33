//! Lent bytes with others around them that no call may touch.

use std::ops::Range;

const GUARD: usize = 64;
const GUARD_BYTE: u8 = 0xC3;

/// Bytes to lend, with a guard on both sides.
#[derive(Clone, Debug, PartialEq, Eq)]
pub struct Guarded {
    all: Vec<u8>,
}

impl Guarded {
    pub fn new(lent: &[u8]) -> Self {
        let guard = [GUARD_BYTE; GUARD];
        Guarded {
            all: [&guard, lent, &guard].concat(),
        }
    }

    /// So many bytes, all alike.
    pub fn filled(length: usize, byte: u8) -> Self {
        Guarded::new(&vec![byte; length])
    }

    fn range(&self) -> Range<usize> {
        GUARD..self.all.len() - GUARD
    }

    pub fn lent(&self) -> &[u8] {
        &self.all[self.range()]
    }

    pub fn lent_mut(&mut self) -> &mut [u8] {
        let range = self.range();
        &mut self.all[range]
    }
}
