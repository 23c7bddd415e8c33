//! Texts with their books.

use super::calls::call;
use super::{books, lent, Lent, Rng};
use crate::replay::Calls;
use crate::sides::{Pair, Plain, Tally};

/// A right text, and a book that was made of it and worked on.
pub struct Case {
    pub text: Vec<u8>,
    pub lent: Lent,
    pub pair: Pair,
}

impl Case {
    /// The first of these texts that reads, with its book.
    pub fn of(rng: &mut Rng, mut text: impl FnMut(&mut Rng) -> Vec<u8>) -> Self {
        let mut book = vec![0xAA; hollgrimsa::BOOK_LENGTH];
        loop {
            let (text, lent) = (text(rng), lent(rng));
            if Plain.make(&text, lent.0, lent.1, &mut book).is_ok() {
                if rng.once_in(3) {
                    books::refill(rng, &mut book);
                }
                let pair = Pair::new(&book);
                let mut case = Case { text, lent, pair };
                case.work(rng);
                return case;
            }
        }
    }

    /// Some calls, so that drafts are open and steps kept.
    fn work(&mut self, rng: &mut Rng) {
        for _ in 0..rng.pick(&[0, 10, 40]) {
            let call = call(rng, self.pair.book());
            let room = hollgrimsa::BLOCK_MOST;
            let _ = self.pair.perform(call, room, &mut Tally::new());
        }
    }

    /// Writes the edited bulletin of the case's own text, which is accepted.
    pub fn edited(&mut self, tally: &mut Tally) -> Vec<u8> {
        let room = hollgrimsa::EDITED_MOST;
        let written = self.pair.write_edited(&self.text, room, tally);
        written.expect("the book's own text")
    }
}
