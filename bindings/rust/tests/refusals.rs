//! Every refusal number, 1 to 25 and 27, with its place: bad input through the
//! C interface, and the same from the plain implementation.

mod plain;
mod replay;
mod sides;

use replay::Calls;
use sides::{Call, Core, Guarded, Pair, Plain, Reader, Tally, Text};

const BOOK: usize = hollgrimsa::BOOK_LENGTH;
const HEAD: &str = "FPUS51 KXYZ 240822\nZFPXYZ\n";
const SEGMENT: &str = "MDC001-242100-\n$$\n";

#[test]
fn every_number_is_seen() {
    let mut tally = Tally::new();
    refuse_texts(&mut tally);
    refuse_places_twice(&mut tally);
    refuse_books(&mut tally);
    refuse_calls(&mut tally);
    refuse_edited(&mut tally);
    tally.assert_seen("every refusal", (1..=25).chain([27]));
}

/// Make refuses this text, in April 2002, with this number and place, and so
/// does writing it out with a book of that month.
fn refuse_text(text: &str, number: usize, place: usize, tally: &mut Tally) {
    let mut book = Guarded::filled(BOOK, 0xAA);
    let before = book.clone();
    let answer = Core.make(text.as_bytes(), 2002, 4, book.lent_mut());
    tally.note(&answer);
    assert_eq!(answer, Err((number, place)), "{text:?}");
    let right = Plain.make(text.as_bytes(), 2002, 4, book.lent_mut());
    assert_eq!(answer, right, "{text:?}");
    let view = Core.view(text.as_bytes(), 2002, 4, 1);
    assert_eq!(view, Err((number, place)), "{text:?}");
    assert!(book == before, "{text:?} is refused and changes a byte");
    let edited = Call::WriteEdited(Text(text.as_bytes()));
    let edited = Pair::new(&self::book()).perform(edited, 0, tally);
    assert_eq!(edited, Err((number, place)), "{text:?}");
}

fn refuse_texts(tally: &mut Tally) {
    let long = "X".repeat(133);
    let cases = [
        (String::new(), 1, 0),
        ("X".repeat(16_385), 1, 0),
        (format!("{HEAD}{SEGMENT}\u{7f}\n"), 2, 44),
        (format!("{HEAD}{SEGMENT}{long}\n"), 2, 176),
        (format!("{HEAD}{SEGMENT}TEXT"), 2, 48),
        (format!("FPUS51 KXYZ 240822 CCY\nZFPXYZ\n{SEGMENT}"), 3, 0),
        ("FPUS51 KXYZ 240822\nZFP?YZ\n".to_string(), 4, 19),
        ("FPUS51 KXYZ 240822\n".to_string(), 4, 19),
        (format!("FPUS51 KXYZ 310822\nZFPXYZ\n{SEGMENT}"), 5, 0),
        (format!("{HEAD}MDC007>005-242100-\n$$\n"), 6, 26),
        (format!("{HEAD}MDC001-\n24210\n"), 6, 34),
        (format!("{HEAD}TEXT\n"), 6, 26),
        (format!("{HEAD}\nMDC001-242100-\n$$\n"), 7, 45),
        (format!("{HEAD}{SEGMENT}MDC002-242100-\n"), 8, 44),
        (format!("{HEAD}{}", SEGMENT.repeat(9)), 9, 170),
        (format!("{HEAD}{SEGMENT}\nNWS X AT042005\n"), 10, 51),
        (format!("{HEAD}MDC001>121-242100-\n$$\n"), 11, 26),
    ];
    for (text, number, place) in cases {
        refuse_text(&text, number, place, tally);
    }
}

/// Blocks in which two elements cover one place, under [`HEAD`]. A wrong element
/// goes before that wherever it stands, but nothing else that is wrong in the
/// segment.
const PLACES_TWICE: [(&str, usize, usize); 26] = [
    ("MDC001-001-242100-\n$$\n", 25, 33),
    ("MDC005-003-006>007-005-242100-\n$$\n", 25, 45),
    ("MDC005>007-006-242100-\n$$\n", 25, 37),
    ("MDC005>007-007-242100-\n$$\n", 25, 37),
    ("MDC005>007-007>009-242100-\n$$\n", 25, 37),
    ("MDC005>007-003>005-242100-\n$$\n", 25, 37),
    ("MDC005-001>005-242100-\n$$\n", 25, 33),
    ("MDC005-001>009-242100-\n$$\n", 25, 33),
    ("MDCALL-000-242100-\n$$\n", 25, 33),
    ("MDC000-VAZ001-MDCALL-242100-\n$$\n", 25, 40),
    ("MDC001-DCC001-MDC001-242100-\n$$\n", 25, 40),
    ("MDC001-MDC001-242100-\n$$\n", 25, 33),
    ("MDC001-\n001-242100-\n$$\n", 25, 34),
    ("MDC001-\r\r\nMDC001-\r\n242100-\n$$\n", 25, 36),
    // The first of two.
    ("MDC001-002-002-001-242100-\n$$\n", 25, 37),
    // Beyond 120 places.
    ("MDC001>250-001-242100-\n$$\n", 25, 37),
    ("MDC001>119-VAZ001-002-MDC001-242100-\n$$\n", 25, 48),
    ("MDC001>119-VAZ001-002-002-242100-\n$$\n", 25, 48),
    ("MDC001>250-AAC001>999-ZZZ999-MDC250-242100-\n$$\n", 25, 55),
    ("MDC001>250-AAC001>999-ZZZ999-998>999-242100-\n$$\n", 25, 55),
    ("MDC001-242100-\n$$\nMDC001-001-242100-\n$$\n", 25, 51),
    ("MDC001-001-242100-\n", 25, 33),
    // A wrong element behind it.
    ("MDC001-001-X-242100-\n$$\n", 6, 37),
    ("MDC001-001-242100-X\n$$\n", 6, 44),
    ("MDC001-001-\n", 6, 38),
    ("MDC001>250-001-242100\n$$\n", 6, 41),
];

fn refuse_places_twice(tally: &mut Tally) {
    for (block, number, place) in PLACES_TWICE {
        refuse_text(&format!("{HEAD}{block}"), number, place, tally);
    }
    let ninth = format!("{HEAD}{}MDC001-001-242100-\n$$\n", SEGMENT.repeat(8));
    refuse_text(&ninth, 9, 170, tally);
}

/// A purge without a minute is asked for behind a place named twice, and
/// before the number of places.
#[test]
fn a_purge_without_a_minute_in_a_block() {
    for (block, number, place) in [
        ("MDC001-301159-\n$$\n", 5, 33),
        ("MDC001>121-301159-\n$$\n", 5, 37),
        ("MDC001-001-301159-\n$$\n", 25, 33),
        ("MDC001>121-121-301159-\n$$\n", 25, 37),
        ("MDC001-001-X-301159-\n$$\n", 6, 37),
    ] {
        let text = format!("FPUS51 KXYZ 311200\nZFPXYZ\n{block}");
        let answer = Core.head(text.as_bytes(), 2003, 1);
        assert_eq!(answer, Err((number, place)), "{text:?}");
        assert_eq!(answer, Plain.head(text.as_bytes(), 2003, 1), "{text:?}");
    }
}

/// What comes near to naming a place twice: the same place in two segments,
/// the same number under two prefixes, neighbours.
#[test]
fn places_named_once() {
    for (block, count) in [
        ("MDC001-242100-\n$$\nMDC001-242100-\n$$\n", 1),
        ("MDC001-DCC001-MDZ001-242100-\n$$\n", 3),
        ("MDC001-000-242100-\n$$\n", 2),
        ("MDC001>120-242100-\n$$\nMDCALL-120-242100-\n$$\n", 120),
        ("MDC004>006-007>009-001>003-242100-\n$$\n", 9),
        ("MDCALL-999-MDZALL-242100-\n$$\n", 3),
        ("MDC002>060-062>120-061-001-242100-\n$$\n", 120),
    ] {
        let text = format!("{HEAD}{block}");
        let segment = Core.segment(text.as_bytes(), 2002, 4, 1);
        let right = Plain.segment(text.as_bytes(), 2002, 4, 1);
        assert_eq!(segment, right, "{text:?}");
        assert_eq!(segment.map(|segment| segment.count), Ok(count), "{text:?}");
    }
}

/// A bulletin of three segments, the second with 120 places.
fn text() -> String {
    format!("{HEAD}MDC001-242100-\n$$\nMDC001>120-242100-\n$$\nVAZ053-250000-\n$$\n")
}

/// Its book.
fn book() -> Vec<u8> {
    let mut book = vec![0xAA; BOOK];
    Core.make(text().as_bytes(), 2002, 4, &mut book).unwrap();
    book
}

/// A book of another length, or of a byte changed, is refused by every call.
fn refuse_books(tally: &mut Tally) {
    let book = book();
    let longer = [&book[..], &[0]].concat();
    let mut changed = book.clone();
    changed[BOOK - 3] = 1;
    for call in Call::EACH {
        for length in [0, 1, BOOK - 1, BOOK + 1] {
            refuse(&mut Pair::new(&longer[..length]), call, 1, tally);
        }
        refuse(&mut Pair::new(&changed), call, 12, tally);
    }
}

/// Both sides refuse the call with this number and change no byte.
fn refuse(pair: &mut Pair, call: Call<'_>, number: usize, tally: &mut Tally) {
    let told = pair.perform(call, 16, tally);
    assert_eq!(told, Err((number, 0)), "{call:?}");
}

fn accept(pair: &mut Pair, calls: &[Call<'_>], tally: &mut Tally) {
    for &call in calls {
        let told = pair.perform(call, 2_000, tally);
        assert!(told.is_ok(), "{call:?}: {told:?}");
    }
}

fn refuse_calls(tally: &mut Tally) {
    let mut pair = Pair::new(&book());
    refuse(&mut pair, Call::Undo, 22, tally);
    refuse(&mut pair, Call::Write(4), 15, tally);
    refuse(&mut pair, Call::Write(1), 23, tally);
    refuse(&mut pair, Call::Take(1, 1), 13, tally);
    accept(&mut pair, &[Call::Open; 4], tally);
    refuse(&mut pair, Call::Open, 14, tally);
    refuse(&mut pair, Call::Commit(4_294_967_297), 13, tally);
    refuse(&mut pair, Call::Take(1, 257), 15, tally);
    refuse(&mut pair, Call::Purge(1, 1), 16, tally);
    accept(&mut pair, &[Call::Take(1, 1), Call::Take(1, 2)], tally);
    refuse(&mut pair, Call::Take(1, 2), 17, tally);
    refuse(&mut pair, Call::Take(1, 3), 18, tally);
    refuse_edits(&mut pair, tally);
    refuse_stale(&mut pair, tally);
}

/// Draft 1 has taken segments 1 and 2.
fn refuse_edits(pair: &mut Pair, tally: &mut Tally) {
    refuse(pair, Call::Add(1, 2, 0), 19, tally);
    refuse(pair, Call::Remove(1, 1, 630_001), 20, tally);
    refuse(pair, Call::Add(1, 1, 1_352_000), 24, tally);
    refuse(pair, Call::Remove(1, 1, 4_294_967_296), 24, tally);
    refuse(pair, Call::Place(1, 1, 1), 24, tally);
    for time in [[0, 0, 0], [32, 0, 0], [1, 24, 0], [1, 0, 60]] {
        refuse(pair, Call::SetPurge(1, 1, time), 24, tally);
    }
}

/// Draft 2 takes and changes segment 2; draft 1's commit is refused, also
/// after an undo.
fn refuse_stale(pair: &mut Pair, tally: &mut Tally) {
    let story = [
        Call::Take(2, 2),
        Call::Remove(2, 2, 630_001),
        Call::Commit(2),
    ];
    accept(pair, &story, tally);
    accept(pair, &[Call::Add(1, 1, 630_002)], tally);
    refuse(pair, Call::Commit(1), 21, tally);
    accept(pair, &[Call::Undo], tally);
    refuse(pair, Call::Commit(1), 21, tally);
}

/// What is wrong is found in this order: a length, the book, the text, what
/// does not belong, the output.
fn refuse_edited(tally: &mut Tally) {
    let book = book();
    let mut changed = book.clone();
    changed[BOOK - 3] = 1;
    let (book, changed) = (book.as_slice(), changed.as_slice());
    let own = text();
    let later = own.replacen("0822", "0823", 1);
    let fewer = [HEAD, SEGMENT].concat();
    let long = "X".repeat(16_385);
    for (book, text, number) in [
        (&book[1..], own.as_str(), 1),
        (book, "", 1),
        (changed, long.as_str(), 1),
        (changed, "?", 12),
        (changed, own.as_str(), 12),
        (book, later.as_str(), 27),
        (book, fewer.as_str(), 27),
        (book, own.as_str(), 23),
    ] {
        let edited = Call::WriteEdited(Text(text.as_bytes()));
        refuse(&mut Pair::new(book), edited, number, tally);
    }
    let edited = Call::WriteEdited(Text(own.as_bytes()));
    accept(&mut Pair::new(book), &[edited], tally);
}

#[test]
fn a_purge_without_a_minute() {
    let text = b"FPUS51 KXYZ 311200\nZFPXYZ\nMDC001-010000-\n$$\n";
    let mut book = vec![0; BOOK];
    Core.make(text, 2003, 1, &mut book).unwrap();
    let (mut pair, mut tally) = (Pair::new(&book), Tally::new());
    accept(&mut pair, &[Call::Open, Call::Take(1, 1)], &mut tally);
    // More than a day before the issue, and February has no such day.
    refuse(&mut pair, Call::SetPurge(1, 1, [30, 11, 59]), 5, &mut tally);
    accept(&mut pair, &[Call::SetPurge(1, 1, [30, 12, 0])], &mut tally);
}
