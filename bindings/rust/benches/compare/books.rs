//! Books to work on, one of each text.

use super::texts::{self, LENT};
use super::{plain, Rng};
use hollgrimsa::{calls, BOOK_LENGTH};

/// Full books of a long text: 8 segments, 16 steps and 4 drafts with two copies
/// each, all of 120 places, but for what the name says.
pub struct Books {
    pub text: Vec<u8>,
    pub full: Vec<u8>,
    /// Draft 4 is closed.
    pub one_closed: Vec<u8>,
    /// Draft 4 has not taken segment 8.
    pub one_untaken: Vec<u8>,
    /// Draft 1's copy of segment 1 is without the middle place.
    pub one_of_119: Vec<u8>,
    /// The places of segment 1.
    pub places: Vec<u32>,
}

impl Books {
    pub fn each() -> Vec<Self> {
        let mut rng = Rng::new(0x5EED_0042);
        let texts = texts::each(texts::long);
        let books = texts.into_iter().map(|text| Books::new(&mut rng, text));
        books.collect()
    }

    fn new(rng: &mut Rng, text: Vec<u8>) -> Self {
        let full = full_book(rng, &text);
        let (year, month) = LENT;
        let mut read = plain::read(&text, year as usize, month as usize).unwrap();
        let places = read.segments.swap_remove(0).places;
        let after = |work: &dyn Fn(&mut [u8])| {
            let mut book = full.clone();
            work(&mut book);
            book
        };
        Books {
            one_closed: after(&|book| calls::drop(book, 4).unwrap()),
            one_untaken: after(&|book| {
                calls::drop(book, 4).unwrap();
                calls::open(book).unwrap();
                calls::take(book, 4, 7).unwrap();
            }),
            one_of_119: after(&|book| {
                assert_eq!(calls::remove(book, 1, 1, places[60].into()), Ok(true));
            }),
            text,
            places,
            full,
        }
    }

    /// The place that draft 1's copy of segment 1 has in its middle.
    pub fn middle_place(&self) -> u32 {
        self.places[60]
    }
}

fn made(text: &[u8]) -> Vec<u8> {
    let mut book = vec![0; BOOK_LENGTH];
    let (year, month) = LENT;
    calls::make(&mut book, text, year, month).unwrap();
    book
}

fn full_book(rng: &mut Rng, text: &[u8]) -> Vec<u8> {
    let mut book = made(text);
    let minute = rng.below(60) as u64;
    for step in 0..16 {
        let draft = changed_draft(&mut book, 1 + 2 * (step % 4), [25, step, minute]);
        assert_eq!(calls::commit(&mut book, draft).unwrap().len(), 2);
    }
    for draft in 0..4 {
        changed_draft(&mut book, 1 + 2 * draft, [26, 0, minute]);
    }
    book
}

/// A book of this text with one step: segments 1 and 2 have another purge.
pub fn with_one_step(text: &[u8]) -> Vec<u8> {
    let mut book = made(text);
    let draft = changed_draft(&mut book, 1, [26, 0, 0]);
    assert_eq!(calls::commit(&mut book, draft).unwrap().len(), 2);
    book
}

/// Opens a draft of this segment and the next, with another purge in both.
fn changed_draft(book: &mut [u8], segment: u64, purge: [u64; 3]) -> u64 {
    let draft = calls::open(book).unwrap();
    for segment in [segment, segment + 1] {
        calls::take(book, draft, segment).unwrap();
        calls::set_purge(book, draft, segment, purge).unwrap();
    }
    draft
}
