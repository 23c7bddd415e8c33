//! Every call of the core on a thread whose whole stack is 64 KiB.

use std::thread;

use hollgrimsa::{calls, Reason, Refusal, BOOK_LENGTH, EDITED_MOST};

const STACK: usize = 64 * 1024;

/// Two segments of 120 places.
const TEXT: &[u8] = b"FPUS51 KXYZ 240822\nZFPXYZ\n\nZONES\nNWS X AL042005\n\n\
    MDC001>120-242100-\nTEXT ONE\n$$\nVAZ001>120-242100-\nTEXT TWO\n$$\n";

#[test]
fn every_call_fits() {
    // Lent bytes are no part of the stack.
    let mut book = vec![0; BOOK_LENGTH];
    let mut out = vec![0; EDITED_MOST];
    on_small_stack(move || {
        read();
        work(&mut book);
        calls::write(&book, 1, &mut out).unwrap();
        calls::write_block(&mut out, &[0, 1, 2, 1_351_999], 0).unwrap();
        calls::write_edited(TEXT, &book, &mut out).unwrap();
    });
}

/// Blocks with far more places than a segment may have are refused there too.
#[test]
fn crowded_blocks_fit() {
    let too_many = crowded("");
    let twice = crowded("ZZZ999-");
    let wrong = crowded("ZZZ999-X-");
    let mut book = vec![0; BOOK_LENGTH];
    calls::make(&mut book, TEXT, 2002, 4).unwrap();
    on_small_stack(move || {
        refuse(&too_many, &mut book, Reason::TooManyPlaces, 26);
        refuse(&twice, &mut book, Reason::PlaceTwice, 15_574);
        refuse(&wrong, &mut book, Reason::WrongBlock, 15_581);
    });
}

fn on_small_stack(work: impl FnOnce() + Send + 'static) {
    let thread = thread::Builder::new().stack_size(STACK).spawn(work);
    thread.unwrap().join().unwrap();
}

/// One block of a wide range under every prefix, descending, then of this.
fn crowded(last: &str) -> Vec<u8> {
    let mut text = String::from("FPUS51 KXYZ 240822\nZFPXYZ\n");
    let letters = || ('A'..='Z').rev();
    for (s1, s2) in letters().flat_map(|s1| letters().map(move |s2| (s1, s2))) {
        text += &format!("{s1}{s2}Z001>999-{s1}{s2}C001>999-\n");
    }
    text += last;
    text += "242100-\n$$\n";
    text.into_bytes()
}

/// Every call that reads refuses the text; the book is another's.
fn refuse(text: &[u8], book: &mut [u8], reason: Reason, place: usize) {
    let refusal = Refusal { reason, place };
    assert_eq!(calls::segments(text, 2002, 4), Err(refusal));
    assert_eq!(calls::view(text, 2002, 4, 1), Err(refusal));
    assert_eq!(calls::write_edited(text, book, &mut []), Err(refusal));
    assert_eq!(calls::make(book, text, 2002, 4), Err(refusal));
}

fn read() {
    calls::issue(TEXT, 2002, 4).unwrap();
    calls::segments(TEXT, 2002, 4).unwrap();
    calls::bbb(TEXT, 2002, 4).unwrap();
    calls::identifier(TEXT, 2002, 4).unwrap();
    calls::storm(TEXT, 2002, 4).unwrap();
    calls::view(TEXT, 2002, 4, 2).unwrap();
    calls::block_end(TEXT, 2002, 4, 2).unwrap();
    calls::purge(TEXT, 2002, 4, 2).unwrap();
    calls::count(TEXT, 2002, 4, 2).unwrap();
    calls::place(TEXT, 2002, 4, 2, 119).unwrap();
}

/// Seventeen commits of two segments, so that a step is forgotten.
fn work(book: &mut [u8]) {
    calls::make(book, TEXT, 2002, 4).unwrap();
    for hour in 0..17 {
        let draft = calls::open(book).unwrap();
        for segment in [1, 2] {
            calls::take(book, draft, segment).unwrap();
            calls::read_purge(book, draft, segment).unwrap();
            calls::read_count(book, draft, segment).unwrap();
            let place = calls::read_place(book, draft, segment, 119).unwrap();
            calls::remove(book, draft, segment, place.into()).unwrap();
            calls::add(book, draft, segment, place.into()).unwrap();
            calls::set_purge(book, draft, segment, [25, hour, 0]).unwrap();
        }
        assert_eq!(calls::commit(book, draft).unwrap().len(), 2);
    }
    let draft = calls::open(book).unwrap();
    calls::drop(book, draft).unwrap();
    calls::undo(book).unwrap();
}
