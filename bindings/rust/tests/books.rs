//! Calls on books, good and damaged, made by the core and by the plain
//! implementation: every answer and every byte after every call.

mod generate;
mod plain;
mod replay;
mod sides;

use generate::calls::call;
use generate::{books, Rng};
use replay::Calls;
use sides::{Call, Core, Pair, Tally};

const BOOK: usize = hollgrimsa::BOOK_LENGTH;
const FULL: usize = hollgrimsa::BLOCK_MOST;
/// The first minutes that no issue, and no purge, can have: January and
/// February 2100.
const ISSUES_END: u32 = 68_374_080;
const PURGES_END: u32 = 68_418_720;
/// Where the book has the number of its steps.
const STEPS: usize = 24;

#[test]
fn sequences_of_calls() {
    let name = "sequences of calls";
    let mut rng = Rng::announced(name, 0x5EED_0011);
    let mut tally = Tally::new();
    let (mut of_two, mut forgetting) = (0, 0);
    for _ in 0..250 {
        let segments = rng.within(1, 8);
        let mut pair = Pair::new(&books::made(&mut rng, segments));
        for _ in 0..500 {
            let call = call(&mut rng, pair.book());
            let steps = pair.book()[STEPS];
            let told = pair.perform(call, output(&mut rng), &mut tally);
            if let (Call::Commit(_), Ok((1.., second))) = (call, told) {
                of_two += usize::from(second != 0);
                forgetting += usize::from(steps == 16);
            }
        }
    }
    println!("{name}: {of_two} commits of two segments, {forgetting} that forget a step");
    assert!(of_two > 0 && forgetting > 0);
    tally.assert_seen(name, [0, 5].into_iter().chain(13..=24));
}

#[test]
fn damaged_books() {
    let name = "damaged books";
    let mut rng = Rng::announced(name, 0x5EED_0012);
    let mut tally = Tally::new();
    for _ in 0..400 {
        let calls = rng.below(240);
        let used = worked_on(&mut rng, calls);
        for _ in 0..24 {
            let mut book = used.clone();
            books::damage(&mut rng, &mut book);
            try_each(&book, &mut tally);
        }
    }
    tally.assert_seen(name, [0, 12, 27]);
}

#[test]
fn random_bytes_with_mended_checks() {
    let name = "random bytes with mended checks";
    let mut rng = Rng::announced(name, 0x5EED_0013);
    let mut tally = Tally::new();
    for _ in 0..500 {
        try_each(&books::random(&mut rng), &mut tally);
    }
    for byte in [0, 1, 0xAA, 0xFF] {
        let mut book = vec![byte; BOOK];
        try_each(&book, &mut tally);
        books::mend_all(&mut book);
        try_each(&book, &mut tally);
    }
    tally.assert_seen(name, [12]);
}

/// Books with issues from one end of the calendar to the other and past it,
/// and purges from two days before to two months later.
#[test]
fn issues_and_purges() {
    let name = "issues and purges";
    let mut rng = Rng::announced(name, 0x5EED_0017);
    let mut tally = Tally::new();
    for issue in [
        0,
        1,
        ISSUES_END - 1,
        ISSUES_END,
        PURGES_END - 1,
        PURGES_END,
        u32::MAX,
    ] {
        for later in [0, 1, 44_639, 44_640, 89_279, u32::MAX] {
            try_each(&books::issued(issue, issue.wrapping_add(later)), &mut tally);
        }
        for earlier in [1439, 1440, 1441] {
            try_each(
                &books::issued(issue, issue.wrapping_sub(earlier)),
                &mut tally,
            );
        }
    }
    for _ in 0..6_000 {
        let day = rng.below(PURGES_END as usize / 1440) as u32;
        let issue = 1440 * day + rng.pick(&[0, 1, 720, 1439]);
        let later = 1440 * rng.below(66) as u32 + rng.pick(&[0, 719, 1439]);
        let purge = issue.wrapping_add(later).wrapping_sub(2 * 1440);
        let mut pair = Pair::new(&books::issued(issue, purge));
        let _ = pair.perform(Call::Write(1), FULL, &mut tally);
    }
    tally.assert_seen(name, [0, 12]);
}

/// A bulletin of 2002-05-01 0100 that purges at `302300`: a book of the time
/// when a purge was never before its issue has 30 May and is refused, and the
/// book that is made anew has 30 April.
#[test]
fn a_book_of_the_old_purge_rule() {
    let text = b"FPUS51 KXYZ 010100\nZFPXYZ\nMDC001-302300-\n$$\n";
    let (april, may) = (17_003_460, 17_046_660);
    let mut book = vec![0; BOOK];
    Core.make(text, 2002, 5, &mut book).unwrap();
    assert_eq!(book, books::repurged(&book, april));
    let mut tally = Tally::new();
    let mut old = Pair::new(&books::repurged(&book, may));
    assert_eq!(old.perform(Call::Write(1), FULL, &mut tally), Err((12, 0)));
}

/// A change of one byte, its block's check mended or not, at every place of
/// some blocks.
#[test]
fn every_byte_of_a_block_changed() {
    let name = "every byte of a block changed";
    let mut rng = Rng::announced(name, 0x5EED_0014);
    let mut tally = Tally::new();
    let book = worked_on(&mut rng, 300);
    for block in [0, 1, 5, 9, 12, 17, 48] {
        for at in 512 * block..512 * (block + 1) {
            for mended in [false, true] {
                let mut book = book.clone();
                book[at] = book[at].wrapping_add(rng.pick(&[1, 2, 255]));
                if mended {
                    books::mend(&mut book, block);
                }
                let mut pair = Pair::new(&book);
                let _ = pair.perform(Call::Write(1), FULL, &mut tally);
                let _ = pair.perform(Call::Undo, FULL, &mut tally);
            }
        }
    }
    tally.assert_seen(name, [0, 12]);
}

#[test]
fn books_of_other_lengths() {
    let name = "books of other lengths";
    let mut rng = Rng::announced(name, 0x5EED_0015);
    let mut tally = Tally::new();
    let mut book = worked_on(&mut rng, 300);
    book.resize(30_000, 0);
    for length in [0, 1, 511, 512, BOOK - 512, BOOK - 1, BOOK + 1, 30_000] {
        for call in Call::EACH {
            let told = Pair::new(&book[..length]).perform(call, FULL, &mut tally);
            assert_eq!(told, Err((1, 0)), "{call:?} on {length} bytes");
        }
    }
    tally.assert_seen(name, [1]);
}

#[test]
fn outputs_of_all_lengths() {
    let name = "outputs of all lengths";
    let mut rng = Rng::announced(name, 0x5EED_0016);
    let mut tally = Tally::new();
    for _ in 0..8 {
        let mut pair = Pair::new(&books::made(&mut rng, 1));
        let (length, _) = pair.perform(Call::Write(1), FULL, &mut tally).unwrap();
        for room in 0..length + 3 {
            let told = pair.perform(Call::Write(1), room, &mut tally);
            let right = if room < length {
                Err((23, 0))
            } else {
                Ok((length, 0))
            };
            assert_eq!(told, right);
        }
    }
    tally.assert_seen(name, [0, 23]);
}

/// A book after so many calls, with drafts and steps.
fn worked_on(rng: &mut Rng, calls: usize) -> Vec<u8> {
    let segments = rng.within(2, 8);
    let mut pair = Pair::new(&books::made(rng, segments));
    for _ in 0..calls {
        let call = call(rng, pair.book());
        let _ = pair.perform(call, FULL, &mut Tally::new());
    }
    pair.book().to_vec()
}

/// Each call once, on a copy of the book.
fn try_each(book: &[u8], tally: &mut Tally) {
    let fresh = Pair::new(book);
    for call in Call::EACH {
        let _ = fresh.clone().perform(call, FULL, tally);
    }
}

/// How many bytes a write is lent.
fn output(rng: &mut Rng) -> usize {
    match rng.below(4) {
        0 => rng.below(60),
        1 => rng.pick(&[0, 1, 16, 17, 18, 100]),
        _ => rng.within(900, FULL),
    }
}
