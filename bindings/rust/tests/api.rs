//! The safe API over the core: books, drafts, bulletins.

mod plain;

use hollgrimsa::{Book, Bulletin, Draft, Reason, Refusal, BLOCK_MOST, BOOK_LENGTH, EDITED_MOST};

const TEXT: &[u8] = b"FPUS51 KXYZ 240822 RRA\r\r\nZFPXYZ\r\r\n\r\r\nNWS X EP912004\r\r\n\r\r\n\
    MDC005-003-006>007-242100-\r\r\nTEXT ONE\r\r\n$$\r\r\n\
    VAZ053-250000-\r\r\nTEXT TWO\r\r\n$$\r\r\n";

fn book() -> Book {
    Book::make(TEXT, 2002, 4).unwrap()
}

fn reason<T: std::fmt::Debug>(answer: Result<T, Refusal>) -> Reason {
    answer.unwrap_err().reason
}

#[test]
fn a_bulletin_shows_what_was_read() {
    let bulletin = Bulletin::read(TEXT, 2002, 4).unwrap();
    let right = plain::read(TEXT, 2002, 4).unwrap();
    assert_eq!(bulletin.issue(), right.issue);
    assert_eq!(bulletin.bbb(), right.heading.bbb);
    assert_eq!(bulletin.identifier(), right.identifier);
    assert_eq!(bulletin.storm().unwrap().to_string(), "EP912004");
    assert_eq!(bulletin.segment_count(), 2);
    for (segment, right) in bulletin.segments().zip(&right.segments) {
        assert_eq!(segment.range(), right.start..right.past);
        assert_eq!(segment.text(), &TEXT[right.start..right.past]);
        assert_eq!(segment.purge(), right.purge);
        assert!(segment.places().eq(right.places.iter().copied()));
    }
    assert_eq!(bulletin.segments().count(), 2);
    let block = bulletin.segment(2).unwrap().block();
    assert_eq!(block, b"VAZ053-250000-\r\r\n");
    assert_eq!(reason(bulletin.segment(3)), Reason::NoSuchSegment);
    assert_eq!(reason(bulletin.segment(0)), Reason::NoSuchSegment);
}

#[test]
fn places_go_both_ways() {
    let mut book = book();
    let mut draft = book.open().unwrap();
    draft.take(1).unwrap();
    let places = draft.places(1).unwrap();
    assert_eq!(places.len(), 4);
    let backward: Vec<u32> = places.clone().rev().collect();
    assert_eq!(backward, [630_007, 630_006, 630_005, 630_003]);
    assert_eq!(places.skip(1).next_back(), Some(630_007));
    assert_eq!(reason(draft.places(2)), Reason::NotTaken);
}

#[test]
fn a_book_has_the_plain_bytes_at_every_step() {
    let mut right = vec![0; BOOK_LENGTH];
    plain::make(TEXT, 2002, 4, &mut right).unwrap();
    let mut book = book();
    assert_eq!(book.as_bytes()[..], right);

    let mut draft = book.open().unwrap();
    draft.take(2).unwrap();
    assert_eq!(draft.set_purge(2, 24, 8, 22), Ok(16_993_942));
    plain::open(&mut right).unwrap();
    plain::take(&mut right, 1, 2).unwrap();
    plain::set_purge(&mut right, 1, 2, 24, 8, 22).unwrap();
    assert_eq!(draft.book().as_bytes()[..], right);

    assert_eq!(draft.commit().unwrap().as_slice(), [2]);
    plain::commit(&mut right, 1).unwrap();
    assert_eq!(book.as_bytes()[..], right);
    assert_eq!(book.step_count(), 1);

    book.undo().unwrap();
    plain::undo(&mut right).unwrap();
    assert_eq!(book.as_bytes()[..], right);
    assert_eq!(reason(book.undo()), Reason::NoStep);
}

#[test]
fn a_draft_is_found_by_its_number() {
    let mut book = book();
    let numbers = [(); 4].map(|()| book.open().unwrap().number());
    assert_eq!(numbers, [1, 2, 3, 4]);
    assert_eq!(reason(book.open()), Reason::AllOpen);
    book.draft(2).map(Draft::drop).unwrap();
    assert_eq!(reason(book.draft(2)), Reason::NoDraft);
    for number in [0, 5, 257, 4_294_967_297, u64::MAX] {
        assert_eq!(reason(book.draft(number)), Reason::NoDraft);
    }
    assert_eq!(book.open().unwrap().number(), 2);
}

#[test]
fn only_sound_bytes_become_a_book() {
    let bytes = book().as_bytes().to_vec();
    assert_eq!(Book::from_bytes(&bytes), Ok(book()));
    let longer = [&bytes[..], &[0]].concat();
    for length in [0, 1, BOOK_LENGTH - 1, BOOK_LENGTH + 1] {
        let refused = Book::from_bytes(&longer[..length]);
        assert_eq!(reason(refused), Reason::WrongLength);
    }
    for at in [0, 510, 24_999] {
        let mut damaged = bytes.clone();
        damaged[at] ^= 1;
        assert_eq!(reason(Book::from_bytes(&damaged)), Reason::NotSound);
    }
}

#[test]
fn a_block_is_written_where_it_fits() {
    let book = book();
    let mut out = [0x5A; BLOCK_MOST];
    assert_eq!(reason(book.write(2, &mut out[..16])), Reason::OutputShort);
    assert!(out.iter().all(|&byte| byte == 0x5A));
    assert_eq!(book.write(2, &mut out), Ok(17));
    assert_eq!(&out[..18], b"VAZ053-250000-\r\r\nZ");
    assert_eq!(book.written(2).unwrap(), "VAZ053-250000-\r\r\n");
}

#[test]
fn the_edited_bulletin_has_what_was_committed() {
    let mut book = book();
    let mut draft = book.open().unwrap();
    draft.take(2).unwrap();
    draft.add(2, 1_093_054).unwrap();
    let unedited = draft.book().edited(TEXT).unwrap();
    draft.commit().unwrap();
    let edited = book.edited(TEXT).unwrap();

    let shown = |bytes: &[u8]| String::from_utf8(bytes.to_vec()).unwrap();
    let written = shown(TEXT).replace("MDC005-003-006>007-", "MDC003-005>007-");
    assert_eq!(shown(&unedited), written);
    assert_eq!(shown(&edited), written.replace("VAZ053-", "VAZ053-054-"));

    let bulletin = Bulletin::read(&edited, 2002, 4).unwrap();
    for segment in bulletin.segments() {
        let block = book.written(segment.number()).unwrap();
        assert_eq!(segment.block(), block.as_bytes());
    }
    let again = Book::make(&edited, 2002, 4).unwrap();
    assert_eq!(again.edited(&edited), Ok(edited));
}

#[test]
fn an_edited_bulletin_is_written_where_it_fits() {
    let book = book();
    let edited = book.edited(TEXT).unwrap();
    let length = edited.len();
    let mut out = [0x5A; EDITED_MOST];
    let short = book.write_edited(TEXT, &mut out[..length - 1]);
    assert_eq!(reason(short), Reason::OutputShort);
    assert!(out.iter().all(|&byte| byte == 0x5A));
    assert_eq!(book.write_edited(TEXT, &mut out), Ok(length));
    assert_eq!(out[..length], edited);
    assert!(out[length..].iter().all(|&byte| byte == 0x5A));
}

#[test]
fn a_text_of_another_book_is_not_edited() {
    let book = book();
    let cut = TEXT.len() - b"VAZ053-250000-\r\r\nTEXT TWO\r\r\n$$\r\r\n".len();
    assert_eq!(reason(book.edited(&TEXT[..cut])), Reason::NotBelonging);
    let mut later = TEXT.to_vec();
    later[17] = b'3';
    let refusal = book.edited(&later).unwrap_err();
    assert_eq!(refusal.reason, Reason::NotBelonging);
    assert_eq!(refusal.offset(), None);
    let refusal = book.edited(&TEXT[..TEXT.len() - 1]).unwrap_err();
    assert_eq!(refusal.reason, Reason::WrongText);
    assert_eq!(refusal.offset(), Some(TEXT.len() - 3));
    assert_eq!(reason(book.edited(b"")), Reason::WrongLength);
}

#[test]
fn a_place_named_twice_is_refused_where_it_stands() {
    let text = String::from_utf8(TEXT.to_vec()).unwrap();
    let text = text.replace("006>007-", "006>007-005-");
    let refusal = Book::make(text.as_bytes(), 2002, 4).unwrap_err();
    assert_eq!(refusal.reason, Reason::PlaceTwice);
    assert_eq!(refusal.offset(), text.find("005-242100-"));
}

#[test]
fn a_book_shows_briefly() {
    let shown = format!("{:?}", book());
    assert_eq!(shown, "Book { issue: 16993942, segments: 2, steps: 0, .. }");
}
