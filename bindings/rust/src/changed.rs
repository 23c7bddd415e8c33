//! The segments that a commit or an undo changed.

use std::array::IntoIter;
use std::iter::Take;

/// The segments that a commit or an undo changed: none, one or two, ascending.
///
/// It is gone through by itself, and compared as a slice.
#[derive(Clone, Copy, Debug, Default, PartialEq, Eq, Hash)]
pub struct Changed {
    /// Ascending; 0 stands for none.
    segments: [u8; 2],
}

impl Changed {
    /// The lower segment in the low byte, then the higher.
    pub(crate) fn packed(value: u64) -> Self {
        let [first, second, ..] = value.to_le_bytes();
        Changed {
            segments: [first, second],
        }
    }

    /// The segments, ascending.
    pub fn as_slice(&self) -> &[u8] {
        &self.segments[..self.len()]
    }

    /// How many they are.
    pub fn len(&self) -> usize {
        self.segments
            .iter()
            .filter(|&&segment| segment != 0)
            .count()
    }

    /// Did nothing change?
    pub fn is_empty(&self) -> bool {
        self.len() == 0
    }

    /// Is this segment among them?
    pub fn contains(&self, segment: u64) -> bool {
        self.as_slice().iter().any(|&one| u64::from(one) == segment)
    }
}

impl IntoIterator for Changed {
    type Item = u8;
    type IntoIter = Take<IntoIter<u8, 2>>;

    fn into_iter(self) -> Self::IntoIter {
        let count = self.len();
        self.segments.into_iter().take(count)
    }
}

#[cfg(test)]
mod tests {
    use super::*;

    #[test]
    fn packed_segments_come_apart() {
        assert!(Changed::packed(0).is_empty());
        assert_eq!(Changed::packed(8).as_slice(), [8]);
        assert_eq!(Changed::packed(0x0501).as_slice(), [1, 5]);
        assert!(Changed::packed(0x0501).contains(5));
        assert!(!Changed::packed(1).contains(0));
        assert!(!Changed::packed(1).contains(257));
        assert_eq!(Changed::packed(0x0501).into_iter().sum::<u8>(), 6);
    }
}
