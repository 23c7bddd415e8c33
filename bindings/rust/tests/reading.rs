//! Texts, good and damaged, read by the core and by the plain implementation.

mod generate;
mod plain;
mod replay;
mod sides;

use generate::{Lent, Rng};
use replay::Calls;
use sides::{Core, Guarded, Plain, Reader, Tally};

const BOOK: usize = hollgrimsa::BOOK_LENGTH;

/// What every refusal of reading is numbered; 15 is a view's.
const READING: [usize; 13] = [1, 2, 3, 4, 5, 6, 7, 8, 9, 10, 11, 15, 25];

#[test]
fn bulletins_good_and_damaged() {
    let name = "bulletins good and damaged";
    let mut rng = Rng::announced(name, 0x5EED_0001);
    let mut tally = Tally::new();
    for _ in 0..16_000 {
        let mut text = generate::text(&mut rng);
        let mut lent = generate::lent(&mut rng);
        if rng.once_in(2) {
            generate::damage(&mut rng, &mut text);
        }
        if rng.once_in(40) {
            lent = generate::damage_lent(&mut rng, lent);
        }
        compare(&text, lent, &mut tally);
    }
    tally.assert_seen(name, READING);
}

#[test]
fn crowded_blocks() {
    let name = "crowded blocks";
    let mut rng = Rng::announced(name, 0x5EED_0006);
    let mut tally = Tally::new();
    for _ in 0..3_000 {
        let mut text = generate::crowded_text(&mut rng);
        let mut lent = generate::lent(&mut rng);
        if rng.once_in(4) {
            // Purges of the 29th and, before 2300, of the 30th have no minute.
            text[12..18].copy_from_slice(b"312300");
            lent = (2003, 1);
        }
        if rng.once_in(8) {
            generate::damage(&mut rng, &mut text);
        }
        compare(&text, lent, &mut tally);
    }
    tally.assert_seen(name, [0, 5, 6, 8, 11, 25]);
}

#[test]
fn long_bulletins() {
    let name = "long bulletins";
    let mut rng = Rng::announced(name, 0x5EED_0002);
    let mut tally = Tally::new();
    for _ in 0..300 {
        let length = rng.pick(&[16_000, 16_383, 16_384, 16_384, 16_385, 20_000]);
        let mut text = generate::long_text(&mut rng, length);
        if rng.once_in(3) {
            generate::damage(&mut rng, &mut text);
        }
        compare(&text, generate::lent(&mut rng), &mut tally);
    }
    tally.assert_seen(name, [0, 1]);
}

#[test]
fn every_start_of_a_small_bulletin() {
    let name = "every start of a small bulletin";
    let mut rng = Rng::announced(name, 0x5EED_0003);
    let mut tally = Tally::new();
    for _ in 0..40 {
        let text = generate::small_text(&mut rng);
        let lent = generate::lent(&mut rng);
        for end in 0..=text.len() {
            compare(&text[..end], lent, &mut tally);
        }
    }
    tally.assert_seen(name, [1, 2, 4, 7, 8]);
}

#[test]
fn every_byte_of_a_small_bulletin_replaced() {
    let name = "every byte of a small bulletin replaced";
    let mut rng = Rng::announced(name, 0x5EED_0004);
    let mut tally = Tally::new();
    for _ in 0..12 {
        let text = generate::small_text(&mut rng);
        let lent = generate::lent(&mut rng);
        for at in 0..text.len() {
            for &byte in b"\n\r -$>AZLY059" {
                let mut text = text.clone();
                text[at] = byte;
                compare(&text, lent, &mut tally);
            }
        }
    }
    tally.assert_seen(name, [2, 3, 4, 6]);
}

#[test]
fn random_bytes() {
    let name = "random bytes";
    let mut rng = Rng::announced(name, 0x5EED_0005);
    let mut tally = Tally::new();
    for _ in 0..2_000 {
        let length = rng.pick(&[0, 1, 2, 19, 27, 100, 16_384]);
        let printable = rng.once_in(2);
        let text: Vec<u8> = std::iter::repeat_with(|| match printable {
            true => rng.pick(b"ABCZ 0123-->$$\n\n\r"),
            false => rng.byte(),
        })
        .take(length)
        .collect();
        compare(&text, (2002, 4), &mut tally);
    }
    tally.assert_seen(name, [1, 2]);
}

#[test]
fn books_of_other_lengths_are_not_made() {
    let text = b"FPUS51 KXYZ 240822\nZFPXYZ\nMDC001-242100-\n$$\n";
    for length in [0, 1, 512, BOOK - 1, BOOK + 1, 30_000] {
        for text in [&text[..], b"", b"?"] {
            let mut book = Guarded::filled(length, 0xAA);
            let before = book.clone();
            assert_eq!(Core.make(text, 2002, 4, book.lent_mut()), Err((1, 0)));
            assert_eq!(Plain.make(text, 2002, 4, book.lent_mut()), Err((1, 0)));
            assert_eq!(book, before);
        }
    }
}

/// Every call on a text, by both sides.
fn compare(text: &[u8], lent: Lent, tally: &mut Tally) {
    let kept = text.to_vec();
    compare_make(text, lent, tally);
    let (year, month) = lent;
    let head = Core.head(text, year, month);
    assert_eq!(head, Plain.head(text, year, month), "{}", shown(text, lent));
    let numbers = match head {
        Ok(_) => &[1, 2, 3, 4, 5, 6, 7, 8, 9, 0, 257, 4_294_967_297, usize::MAX][..],
        Err(_) => &[1, 0][..],
    };
    for &number in numbers {
        compare_segment(text, lent, number, tally);
    }
    assert_eq!(text, kept, "the text was written to");
}

fn compare_make(text: &[u8], lent: Lent, tally: &mut Tally) {
    let (year, month) = lent;
    let mut core = Guarded::filled(BOOK, 0xAA);
    let mut plain = core.clone();
    let answer = Core.make(text, year, month, core.lent_mut());
    let right = Plain.make(text, year, month, plain.lent_mut());
    tally.note(&answer);
    assert_eq!(answer, right, "{}", shown(text, lent));
    assert!(core == plain, "made otherwise: {}", shown(text, lent));
    if answer.is_err() {
        assert!(core == Guarded::filled(BOOK, 0xAA), "{}", shown(text, lent));
    }
}

fn compare_segment(text: &[u8], lent: Lent, number: usize, tally: &mut Tally) {
    let (year, month) = lent;
    let segment = Core.segment(text, year, month, number);
    let right = Plain.segment(text, year, month, number);
    tally.note(&segment);
    assert_eq!(segment, right, "{number} of {}", shown(text, lent));
    let count = segment.map_or(1, |segment| segment.count);
    for index in [0, count / 2, count - 1, count, usize::MAX] {
        assert_eq!(
            Core.place(text, year, month, number, index),
            Plain.place(text, year, month, number, index),
            "{index} in {number} of {}",
            shown(text, lent)
        );
    }
}

/// A text as it can be typed in again.
fn shown(text: &[u8], (year, month): Lent) -> String {
    format!("{year} {month} b\"{}\"", text.escape_ascii())
}
