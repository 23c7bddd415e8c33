//! The proved core of an editor for weather bulletins, from Rust.
//!
//! A [`Bulletin`] is a view over a text that the core has read: heading,
//! storm, segments with their places and purge times. A [`Book`] is made of a
//! bulletin; [`Draft`]s change which places its segments name and when they
//! purge; commits can be undone. [`Book::edited`] gives the bulletin with what
//! was committed, to be sent on. What is wrong is answered with a [`Refusal`]:
//! its [`Reason`] and its place. A refused call changes nothing.
//!
//! Everything is done by the core, which is linked as a static library; each
//! of its functions is proved to meet its contract. This crate adds only the
//! lengths and lifetimes. Minutes count from 1970-01-01 0000 UTC.
//!
//! ```
//! use hollgrimsa::{Book, Refusal};
//!
//! fn main() -> Result<(), Refusal> {
//!     let text = b"FPUS51 KXYZ 240822\nZFPXYZ\n\nZONE FORECAST\n\n\
//!         MDC005-003-006>007-242100-\nTEXT ONE\n$$\nVAZ053-250000-\nTEXT TWO\n$$\n";
//!     let mut book = Book::make(text, 2002, 4)?;
//!     let mut draft = book.open()?;
//!     draft.take(2)?;
//!     draft.add(2, 1_093_054)?;
//!     let changed = draft.commit()?;
//!     for segment in changed {
//!         print!("{}", book.written(segment.into())?);
//!     }
//!     let edited = book.edited(text)?;
//!     assert!(edited.ends_with(b"VAZ053-054-250000-\nTEXT TWO\n$$\n"));
//!     Ok(())
//! }
//! ```
#![warn(missing_docs)]

mod answer;
mod book;
mod bulletin;
pub mod calls;
mod changed;
mod draft;
mod places;
mod refusal;
mod storm;
mod sys;

pub use book::Book;
pub use bulletin::{Bulletin, Segment};
pub use calls::write_block;
pub use changed::Changed;
pub use draft::Draft;
pub use places::Places;
pub use refusal::{Reason, Refusal};
pub use storm::{Basin, Class, Storm};

/// The bytes of a book, exactly.
pub const BOOK_LENGTH: usize = 25_088;
/// The most bytes of a bulletin; the least is 1.
pub const TEXT_MOST: usize = 16_384;
/// No written block is longer.
pub const BLOCK_MOST: usize = 2_048;
/// No edited bulletin is longer: a text of [`TEXT_MOST`] bytes, and a block for
/// each of 8 segments.
pub const EDITED_MOST: usize = TEXT_MOST + SEGMENTS_MOST as usize * BLOCK_MOST;
/// The most segments of a bulletin; the least is 1.
pub const SEGMENTS_MOST: u64 = 8;
/// The most places of a segment; the least is 1.
pub const PLACES_MOST: u64 = 120;
/// Places are the numbers below this.
pub const PLACES_END: u32 = 1_352_000;
/// Drafts are numbered from 1 up to this.
pub const DRAFTS: u64 = 4;
/// The most segments that a draft can take.
pub const TAKEN_MOST: u64 = 2;
/// The most steps that can be undone.
pub const STEPS_MOST: u64 = 16;
/// The first year of an issue.
pub const YEAR_FIRST: u64 = 1970;
/// The last year of an issue.
pub const YEAR_LAST: u64 = 2099;
