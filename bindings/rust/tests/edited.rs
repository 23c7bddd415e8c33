//! Edited bulletins, written by the core and by the plain implementation.

mod generate;
mod plain;
mod replay;
mod sides;

use std::ops::Range;

use generate::{books, lines_of, Case, Rng};
use replay::Calls;
use sides::{Call, Core, Pair, Reader, Tally, Text};

const BOOK: usize = hollgrimsa::BOOK_LENGTH;
const TEXT_MOST: usize = hollgrimsa::TEXT_MOST;
/// No edited bulletin is longer.
const ROOM: usize = hollgrimsa::EDITED_MOST;
const BLOCK: usize = hollgrimsa::BLOCK_MOST;
/// Where the book has its drafts, the number of its steps, and its segments.
const DRAFTS: Range<usize> = 8..24;
const STEPS: usize = 24;
const SEGMENTS: Range<usize> = 512..9 * 512;

/// What the call can be refused with.
const REFUSALS: [usize; 15] = [1, 2, 3, 4, 5, 6, 7, 8, 9, 10, 11, 12, 23, 25, 27];

/// Writes into outputs of all kinds of lengths: enough, exact, one short, none.
fn write_in_rooms(pair: &mut Pair, text: &[u8], tally: &mut Tally) {
    let full = pair.write_edited(text, ROOM, tally);
    let Ok(edited) = full else {
        // 23 comes last.
        assert_eq!(pair.write_edited(text, 0, tally), full);
        return;
    };
    let length = edited.len();
    for room in [length, length + 1] {
        let written = pair.write_edited(text, room, tally);
        assert_eq!(written.as_ref(), Ok(&edited));
    }
    for room in [0, length / 2, length - 1] {
        assert_eq!(pair.write_edited(text, room, tally), Err((23, 0)));
    }
}

#[test]
fn texts_good_and_damaged() {
    let name = "edited texts good and damaged";
    let mut rng = Rng::announced(name, 0x5EED_0031);
    let mut tally = Tally::new();
    for _ in 0..1_500 {
        let mut case = Case::of(&mut rng, generate::text);
        write_in_rooms(&mut case.pair, &case.text, &mut tally);
        for _ in 0..6 {
            let mut text = match rng.below(4) {
                0 => generate::text(&mut rng),
                1 => reissued(&mut rng, &case.text),
                2 => recounted(&mut rng, &case),
                _ => case.text.clone(),
            };
            if rng.once_in(3) {
                generate::damage(&mut rng, &mut text);
            }
            write_in_rooms(&mut case.pair, &text, &mut tally);
        }
        if rng.once_in(4) {
            let mut book = case.pair.book().to_vec();
            books::damage(&mut rng, &mut book);
            write_in_rooms(&mut Pair::new(&book), &case.text, &mut tally);
        }
    }
    tally.assert_seen(name, [0].into_iter().chain(REFUSALS));
}

/// The text under another day, hour or minute, which its month may not have.
fn reissued(rng: &mut Rng, text: &[u8]) -> Vec<u8> {
    let time: &[u8] = rng.pick(&[b"310000", b"300822", b"290822", b"010000", b"150822"]);
    let mut text = text.to_vec();
    text[12..18].copy_from_slice(time);
    text
}

/// The text with a segment more, or without its last one.
fn recounted(rng: &mut Rng, case: &Case) -> Vec<u8> {
    let (text, (year, month)) = (&case.text, case.lent);
    let last = plain::read(text, year, month).unwrap().segments.pop();
    match last {
        Some(last) if rng.once_in(2) => [&text[..last.start], &text[last.past..]].concat(),
        _ => [&text[..], b"MDC001-150822-\n$$\n"].concat(),
    }
}

/// A text does not belong where its issue or its number of segments differs;
/// a day that the book's month does not have is 5 at place 0 before that.
#[test]
fn texts_of_other_books() {
    let segment = "MDC001-282100-\n$$\n";
    let text = |time: &str, segments: usize| {
        format!("FPUS51 KXYZ {time}\nZFPXYZ\n{}", segment.repeat(segments))
    };
    let mut tally = Tally::new();
    let mut book = vec![0; BOOK];
    Core.make(text("240822", 2).as_bytes(), 2002, 4, &mut book)
        .unwrap();
    let mut pair = Pair::new(&book);
    for (time, segments, right) in [
        ("240822", 2, None),
        ("240823", 2, Some((27, 0))),
        ("240821", 2, Some((27, 0))),
        ("250822", 2, Some((27, 0))),
        ("240822", 1, Some((27, 0))),
        ("240822", 3, Some((27, 0))),
        ("250822", 8, Some((27, 0))),
        ("300822", 2, Some((27, 0))),
        ("310822", 2, Some((5, 0))),
        ("320822", 2, Some((3, 0))),
        ("240822", 9, Some((9, 170))),
        ("240822", 0, Some((7, 26))),
    ] {
        let text = text(time, segments);
        let written = pair.write_edited(text.as_bytes(), ROOM, &mut tally);
        assert_eq!(written.err(), right, "{text:?}");
        write_in_rooms(&mut pair, text.as_bytes(), &mut tally);
    }
    tally.assert_seen("texts of other books", [0, 3, 5, 7, 9, 23, 27]);
}

/// The same text is another month's bulletin for another book.
#[test]
fn the_month_is_the_books() {
    let text: &[u8] = b"FPUS51 KXYZ 311300\nZFPXYZ\nMDC001-301200-\n$$\n";
    let other: &[u8] = b"FPUS51 KXYZ 010000\nZFPXYZ\nMDC001-301200-\n$$\n";
    let mut tally = Tally::new();
    for (year, month, own, right) in [
        (2003, 3, text, Ok(44)),
        (2003, 1, other, Err((5, 33))),
        (2003, 4, other, Err((5, 0))),
        (2003, 3, other, Err((27, 0))),
        (2004, 12, text, Ok(44)),
        (2099, 12, text, Ok(44)),
    ] {
        let mut book = vec![0; BOOK];
        Core.make(own, year, month, &mut book).unwrap();
        let written = Pair::new(&book).write_edited(text, ROOM, &mut tally);
        assert_eq!(written.map(|out| out.len()), right, "{year} {month}");
    }
    tally.assert_seen("the month is the book's", [0, 5, 27]);
}

#[test]
fn outputs_of_all_lengths() {
    let name = "edited outputs of all lengths";
    let mut rng = Rng::announced(name, 0x5EED_0032);
    let mut tally = Tally::new();
    for _ in 0..8 {
        let mut case = Case::of(&mut rng, generate::small_text);
        let edited = case.edited(&mut tally);
        for room in 0..edited.len() + 3 {
            let written = case.pair.write_edited(&case.text, room, &mut tally);
            let right = if room < edited.len() {
                Err((23, 0))
            } else {
                Ok(edited.clone())
            };
            assert_eq!(written, right);
        }
    }
    tally.assert_seen(name, [0, 23]);
}

/// Of a text or a book of another length nothing else is asked.
#[test]
fn other_lengths() {
    let mut rng = Rng::announced("edited, other lengths", 0x5EED_0033);
    let mut tally = Tally::new();
    let case = Case::of(&mut rng, generate::text);
    let mut book = case.pair.book().to_vec();
    book.resize(30_000, 0);
    let long = vec![b'X'; 20_000];
    for text in [&case.text[..], b"", &long[..TEXT_MOST + 1], &long[..], b"?"] {
        for length in [0, 1, 512, BOOK - 512, BOOK - 1, BOOK + 1, 30_000] {
            for room in [0, ROOM] {
                let written = Pair::new(&book[..length]).write_edited(text, room, &mut tally);
                assert_eq!(written, Err((1, 0)), "{length}");
            }
        }
    }
    for text in [&long[..0], &long[..TEXT_MOST + 1], &long[..]] {
        for book in [&book[..BOOK], &[0xAA; BOOK]] {
            let written = Pair::new(book).write_edited(text, ROOM, &mut tally);
            assert_eq!(written, Err((1, 0)));
        }
    }
    let unsound = Pair::new(&[0xAA; BOOK]).perform(Call::WriteEdited(Text(b"?")), 0, &mut tally);
    assert_eq!(unsound, Err((12, 0)));
}

/// Full texts grow past what can be read, and are written all the same.
#[test]
fn long_outputs() {
    let name = "long edited outputs";
    let mut rng = Rng::announced(name, 0x5EED_0034);
    let mut tally = Tally::new();
    let mut longer = 0;
    for _ in 0..150 {
        let length = rng.pick(&[14_000, 16_000, 16_383, TEXT_MOST]);
        let mut case = Case::of(&mut rng, |rng| generate::long_text(rng, length));
        write_in_rooms(&mut case.pair, &case.text, &mut tally);
        let edited = case.edited(&mut tally);
        check_written(&case, &edited);
        check_again(&mut case, &edited, &mut tally);
        longer += usize::from(edited.len() > TEXT_MOST);
    }
    println!("{name}: {longer} of more than {TEXT_MOST} bytes");
    assert!(longer > 0);
    tally.assert_seen(name, [0, 1, 23]);
}

#[test]
fn what_is_written() {
    let name = "what is written in an edited bulletin";
    let mut rng = Rng::announced(name, 0x5EED_0035);
    let mut tally = Tally::new();
    for _ in 0..1_500 {
        let mut case = Case::of(&mut rng, generate::text);
        let edited = case.edited(&mut tally);
        check_written(&case, &edited);
        check_again(&mut case, &edited, &mut tally);
    }
}

/// The text's own bytes, and each block as the book's write call gives it, but
/// with its lines ended as the first line of the old block.
fn check_written(case: &Case, edited: &[u8]) {
    let (text, (year, month)) = (&case.text, case.lent);
    let count = Core.head(text, year, month).unwrap().segments;
    let (mut right, mut at) = (Vec::new(), 0);
    for number in 1..=count {
        let segment = Core.segment(text, year, month, number).unwrap();
        let mut block = [0; BLOCK];
        let length = Core.write(case.pair.book(), number, &mut block).unwrap();
        right.extend_from_slice(&text[at..segment.start]);
        let (_, end) = lines_of(&text[segment.start..]).next().unwrap();
        for (line, _) in lines_of(&block[..length]) {
            right.extend_from_slice(line);
            right.extend_from_slice(end);
        }
        at = segment.block_end;
    }
    right.extend_from_slice(&text[at..]);
    assert!(edited == right, "{:?}: {:?}", Text(text), Text(edited));
}

/// What was written reads to what the book holds, and writes out the same.
fn check_again(case: &mut Case, edited: &[u8], tally: &mut Tally) {
    let again = case.pair.write_edited(edited, ROOM, tally);
    if edited.len() > TEXT_MOST {
        assert_eq!(again, Err((1, 0)));
        return;
    }
    assert_eq!(again.as_deref(), Ok(edited));

    let (year, month) = case.lent;
    let head = Core.head(&case.text, year, month);
    assert_eq!(Core.head(edited, year, month), head);
    let mut made = vec![0xAA; BOOK];
    Core.make(edited, year, month, &mut made).unwrap();
    let book = case.pair.book();
    assert_eq!(made[..5], book[..5], "issue and number of segments");
    assert_eq!(made[SEGMENTS], book[SEGMENTS], "{:?}", Text(edited));
    let own = Pair::new(&made).write_edited(edited, ROOM, tally);
    assert_eq!(own.as_deref(), Ok(edited), "a text in written form stays");
}

/// Only what was committed shows: a book without its drafts and steps writes
/// the same.
#[test]
fn drafts_and_steps_do_not_show() {
    let name = "drafts and steps do not show";
    let mut rng = Rng::announced(name, 0x5EED_0036);
    let mut tally = Tally::new();
    let (mut drafts, mut steps) = (0, 0);
    for _ in 0..400 {
        let mut case = Case::of(&mut rng, generate::text);
        let edited = case.edited(&mut tally);
        let mut bare = case.pair.book().to_vec();
        drafts += usize::from(bare[DRAFTS].iter().any(|&byte| byte != 0));
        steps += usize::from(bare[STEPS] != 0);
        books::strip(&mut bare);
        let written = Pair::new(&bare).write_edited(&case.text, ROOM, &mut tally);
        assert_eq!(written, Ok(edited));
    }
    println!("{name}: {drafts} books with drafts, {steps} with steps");
    assert!(drafts > 0 && steps > 0);
}
