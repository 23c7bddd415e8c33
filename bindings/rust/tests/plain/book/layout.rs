//! Where things stand in a book's bytes.

use super::super::blocks::MAX_PLACES;

pub const BLOCKS: usize = 49;
pub const BLOCK: usize = 512;
pub const LENGTH: usize = BLOCKS * BLOCK;

pub const DRAFTS: usize = 4;
pub const STEPS: usize = 16;

/// One block: what it holds, then its check.
pub type Block = [u8; BLOCK];
pub type Blocks = [Block; BLOCKS];

/// Where the check starts.
pub const CHECK: usize = 510;
const MODULUS: u32 = 65_521;

/// A block that holds nothing.
pub static UNUSED: Block = {
    let mut block = [0; BLOCK];
    block[CHECK] = 1;
    block
};

/// The weights of a block's bytes in its check.
static WEIGHTS: [i16; CHECK] = {
    let mut weights = [0; CHECK];
    let mut i = 0;
    while i < CHECK {
        weights[i] = i as i16 + 1;
        i += 1;
    }
    weights
};

/// The check of a block whose other bytes are zero.
pub fn check_of(used: &[u8]) -> [u8; 2] {
    let weighted = used
        .iter()
        .zip(&WEIGHTS)
        .map(|(&b, &w)| i32::from(b) * i32::from(w));
    let sum = 1 + weighted.sum::<i32>() as u32;
    ((sum % MODULUS) as u16).to_le_bytes()
}

/// Stores a block's check.
pub fn seal(block: &mut Block) {
    let check = check_of(&block[..CHECK]);
    block[CHECK..].copy_from_slice(&check);
}

/// Are these bytes, at most 510, all zero?
pub fn are_zero(bytes: &[u8]) -> bool {
    *bytes == UNUSED[..bytes.len()]
}

pub fn get_u32(block: &Block, at: usize) -> u32 {
    u32::from_le_bytes([block[at], block[at + 1], block[at + 2], block[at + 3]])
}

pub fn put_u32(block: &mut Block, at: usize, value: u32) {
    block[at..at + 4].copy_from_slice(&value.to_le_bytes());
}

/// Block 0: issue minute, segment count, drafts and steps.
pub mod header {
    use super::*;

    pub const ISSUE: usize = 0;
    pub const SEGMENTS: usize = 4;
    pub const DRAFT: usize = 8;
    pub const STEP_COUNT: usize = 24;
    pub const STEP: usize = 32;

    pub fn segments(header: &Block) -> usize {
        usize::from(header[SEGMENTS])
    }

    pub fn steps(header: &Block) -> usize {
        usize::from(header[STEP_COUNT])
    }

    /// The two segments of a step, counted from 0; the second 0 if none.
    pub fn step(header: &Block, step: usize) -> [u8; 2] {
        [header[STEP + 2 * step], header[STEP + 2 * step + 1]]
    }

    pub fn put_step(header: &mut Block, step: usize, segments: [u8; 2]) {
        header[STEP + 2 * step..][..2].copy_from_slice(&segments);
    }
}

/// A draft's four bytes in block 0.
#[derive(Clone, Copy, PartialEq, Eq)]
pub struct Draft {
    pub open: u8,
    pub taken: [u8; 2],
    pub stale: u8,
}

impl Draft {
    pub const CLOSED: Draft = Draft {
        open: 0,
        taken: [0; 2],
        stale: 0,
    };

    /// Reads a draft, counted from 0.
    pub fn get(header: &Block, draft: usize) -> Self {
        let at = header::DRAFT + 4 * draft;
        let [open, first, second, stale] = [0, 1, 2, 3].map(|i| header[at + i]);
        Draft {
            open,
            taken: [first, second],
            stale,
        }
    }

    pub fn put(self, header: &mut Block, draft: usize) {
        let [first, second] = self.taken;
        let bytes = [self.open, first, second, self.stale];
        header[header::DRAFT + 4 * draft..][..4].copy_from_slice(&bytes);
    }

    pub fn is_open(self) -> bool {
        self.open == 1
    }

    /// Has it taken one of these segments? A 0 among them is none.
    pub fn has_any_of(self, segments: [u8; 2]) -> bool {
        segments
            .iter()
            .any(|&segment| segment != 0 && self.taken.contains(&segment))
    }
}

/// The block of a draft's copy; draft and slot count from 0.
pub const fn copy_block(draft: usize, slot: usize) -> usize {
    9 + 2 * draft + slot
}

/// The block of what a step's segment held; step and slot count from 0.
pub const fn step_block(step: usize, slot: usize) -> usize {
    17 + 2 * step + slot
}

/// A used block of a segment, a copy or a step.
pub mod content {
    use super::*;

    pub const PURGE: usize = 0;
    pub const COUNT: usize = 4;
    pub const PLACE: usize = 8;

    pub fn purge(block: &Block) -> u32 {
        get_u32(block, PURGE)
    }

    pub fn count(block: &Block) -> usize {
        usize::from(block[COUNT])
    }

    /// The used place entries; the count must be sound.
    pub fn entries(block: &Block) -> &[[u8; 4]] {
        &block[PLACE..].as_chunks().0[..count(block).min(MAX_PLACES)]
    }

    pub fn places(block: &Block) -> impl DoubleEndedIterator<Item = u32> + '_ {
        entries(block)
            .iter()
            .map(|&entry| u32::from_le_bytes(entry))
    }

    /// The index of a place, or the one where it would stand.
    pub fn find(block: &Block, place: u32) -> Result<usize, usize> {
        entries(block).binary_search_by_key(&place, |&entry| u32::from_le_bytes(entry))
    }
}
