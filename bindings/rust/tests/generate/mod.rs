//! Inputs made by chance from fixed seeds.
//!
//! Each test program uses its own part of this module.
#![allow(dead_code, unused_imports)]

mod block;
pub mod books;
pub mod calls;
mod case;
mod damage;
mod element;
mod ends;
mod rng;
mod text;

pub use block::ascending_places;
pub use case::Case;
pub use damage::{damage, damage_lent};
pub use ends::{all_end, lines_of, Ends, LINE_ENDS};
pub use rng::Rng;
pub use text::{crowded_text, lent, long_text, small_text, text, text_ended, Lent};
