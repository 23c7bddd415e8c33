//! The same work by the core and by the plain implementation, in one run and
//! interleaved; the table has the medians.
//!
//!     cargo bench --offline
//!
//! A number handed on is the count of rounds: `cargo bench --offline -- 500`.

mod books;
#[path = "../../tests/generate/element.rs"]
#[allow(dead_code)]
mod element;
#[path = "../../tests/generate/ends.rs"]
#[allow(dead_code)]
mod ends;
mod measure;
#[path = "../../tests/plain/mod.rs"]
mod plain;
#[path = "../../tests/generate/rng.rs"]
#[allow(dead_code)]
mod rng;
mod texts;

use std::env;
use std::hint::black_box;

use books::Books;
use ends::Ends;
use hollgrimsa::{calls, BLOCK_MOST, BOOK_LENGTH, EDITED_MOST};
use measure::{Lent, Table};
use plain::book::layout;
use plain::LineEnd;
use rng::Rng;
use texts::{Order, LENT};

const ROUNDS: usize = 4_001;

fn main() {
    let rounds = env::args().find_map(|word| word.parse().ok());
    let books = Books::each();
    let mut table = Table::new(rounds.unwrap_or(ROUNDS), &books[0].full, add_up_checks);
    let long = "16,384 bytes, 8 segments";
    let typical = "2 KB, 3 segments";
    let long_texts: Vec<_> = books.iter().map(|books| books.text.clone()).collect();
    let typical_texts = texts::each(texts::typical);
    let lf_texts = texts::each(texts::typical_with_lf);
    reading(&mut table, long, &long_texts);
    reading(&mut table, typical, &typical_texts);
    lines_and_ends(&mut table);
    full_segments(&mut table);
    overfull_blocks(&mut table);
    draft_calls(&mut table, &books);
    edit_calls(&mut table, &books);
    history_calls(&mut table, &books);
    writing(&mut table, &books);
    edited(&mut table, long, &long_texts, |index| {
        books[index].full.clone()
    });
    for (name, texts) in [(typical, typical_texts), ("2 KB, 3 segments, LF", lf_texts)] {
        edited(&mut table, name, &texts, |index| {
            books::with_one_step(&texts[index])
        });
    }
    table.print();
}

/// The 49 checks of a book alone, by plain code.
fn add_up_checks(book: &[u8]) -> bool {
    let (blocks, _) = book.as_chunks::<{ layout::BLOCK }>();
    blocks.iter().all(|block| {
        let (used, check) = block.split_at(layout::CHECK);
        layout::check_of(used) == check
    })
}

/// Reading alone; each text is accepted, or refused with this number.
fn read(table: &mut Table<'_>, name: &str, number: Option<u8>, texts: &[Vec<u8>]) {
    let (year, month) = LENT;
    let inputs: Vec<_> = texts.iter().map(|text| Lent::of_text(text)).collect();
    table.add_answered(
        &format!("read {name}"),
        number,
        &inputs,
        |lent| calls::segments(&lent.text, year, month),
        |lent| plain::read(&lent.text, year as usize, month as usize),
    );
}

fn reading(table: &mut Table<'_>, name: &str, texts: &[Vec<u8>]) {
    read(table, name, None, texts);
    let (year, month) = LENT;
    let mut inputs: Vec<_> = texts.iter().map(|text| Lent::of_text(text)).collect();
    table.add(
        &format!("view {name}"),
        &inputs,
        |lent| calls::view(&lent.text, year, month, 3),
        |lent| plain::view(&lent.text, year as usize, month as usize, 3).map(<[u8]>::len),
    );
    for input in &mut inputs {
        input.book = vec![0xAA; BOOK_LENGTH];
    }
    table.add(
        &format!("make {name}"),
        &inputs,
        |lent| calls::make(&mut lent.book, &lent.text, year, month),
        |lent| plain::make(&lent.text, year as usize, month as usize, &mut lent.book),
    );
}

/// Bulletins of lines of prose, short ones and none, with each of the line ends.
fn lines_and_ends(table: &mut Table<'_>) {
    for (lines, most) in [
        ("lines of 0..66", 66),
        ("lines of 0..3", 3),
        ("empty lines", 0),
    ] {
        for (name, ends) in [
            ("LF", Ends::All("\n")),
            ("CR LF", Ends::All("\r\n")),
            ("CR CR LF", Ends::All("\r\r\n")),
            ("mixed ends", Ends::Mixed),
        ] {
            let texts = texts::each(|rng| texts::prose(rng, most, ends));
            read(table, &format!("16 KB, {lines}, {name}"), None, &texts);
        }
    }
}

/// Bulletins of 8 segments with 120 places each.
fn full_segments(table: &mut Table<'_>) {
    for (name, width, order) in [
        ("singles ascending", 1, Order::Ascending),
        ("singles descending", 1, Order::Descending),
        ("singles in random order", 1, Order::Random),
        ("ranges of 2 in random order", 2, Order::Random),
        ("ranges of 15 ascending", 15, Order::Ascending),
    ] {
        let texts = texts::each(|rng| texts::full_segments(rng, width, order));
        read(table, &format!("8 segments of 120, {name}"), None, &texts);
    }
}

/// Bulletins of one block with far more places than a segment may have.
fn overfull_blocks(table: &mut Table<'_>) {
    for (name, order) in [
        ("ascending", Order::Ascending),
        ("descending", Order::Descending),
        ("in random order", Order::Random),
    ] {
        let texts = texts::each(|rng| texts::overfull(rng, order, false));
        let singles = format!("block of 4,000 singles {name}");
        read(table, &singles, Some(11), &texts);
        let texts = texts::each(|rng| texts::overfull_of_ranges(rng, order));
        let ranges = format!("block of 1,352 ranges {name}");
        read(table, &ranges, Some(11), &texts);
    }
    let texts = texts::each(|rng| texts::overfull(rng, Order::Random, true));
    let last_again = "block of 4,000 singles, the last again";
    read(table, last_again, Some(25), &texts);
}

/// What is lent where a call has a book alone.
fn each_book(books: &[Books], book: impl Fn(&Books) -> &Vec<u8>) -> Vec<Lent> {
    let lent = books.iter().map(|books| Lent::of_book(book(books)));
    lent.collect()
}

fn draft_calls(table: &mut Table<'_>, books: &[Books]) {
    table.add(
        "open",
        &each_book(books, |books| &books.one_closed),
        |lent| calls::open(&mut lent.book),
        |lent| plain::open(&mut lent.book),
    );
    table.add(
        "take",
        &each_book(books, |books| &books.one_untaken),
        |lent| calls::take(&mut lent.book, 4, 8),
        |lent| plain::take(&mut lent.book, 4, 8),
    );
    let full = each_book(books, |books| &books.full);
    table.add(
        "read purge",
        &full,
        |lent| calls::read_purge(&lent.book, 4, 8),
        |lent| plain::read_purge(&lent.book, 4, 8),
    );
    table.add(
        "read count",
        &full,
        |lent| calls::read_count(&lent.book, 4, 8),
        |lent| plain::read_count(&lent.book, 4, 8),
    );
    table.add(
        "read place",
        &full,
        |lent| calls::read_place(&lent.book, 4, 8, 119),
        |lent| plain::read_place(&lent.book, 4, 8, 119),
    );
}

fn edit_calls(table: &mut Table<'_>, books: &[Books]) {
    let with_place = |books: &Books, book: &[u8]| Lent {
        places: vec![books.middle_place()],
        ..Lent::of_book(book)
    };
    let of_119 = books
        .iter()
        .map(|books| with_place(books, &books.one_of_119));
    table.add(
        "add",
        &of_119.collect::<Vec<_>>(),
        |lent| calls::add(&mut lent.book, 1, 1, lent.places[0].into()),
        |lent| plain::add(&mut lent.book, 1, 1, lent.places[0] as usize),
    );
    let full = books.iter().map(|books| with_place(books, &books.full));
    let full: Vec<_> = full.collect();
    table.add(
        "remove",
        &full,
        |lent| calls::remove(&mut lent.book, 1, 1, lent.places[0].into()),
        |lent| plain::remove(&mut lent.book, 1, 1, lent.places[0] as usize),
    );
    table.add(
        "set purge",
        &full,
        |lent| calls::set_purge(&mut lent.book, 1, 1, [28, 12, 0]),
        |lent| plain::set_purge(&mut lent.book, 1, 1, 28, 12, 0),
    );
}

fn history_calls(table: &mut Table<'_>, books: &[Books]) {
    let full = each_book(books, |books| &books.full);
    table.add(
        "commit of two changed segments",
        &full,
        |lent| calls::commit(&mut lent.book, 1),
        |lent| plain::commit(&mut lent.book, 1),
    );
    table.add(
        "drop",
        &full,
        |lent| calls::drop(&mut lent.book, 1),
        |lent| plain::drop(&mut lent.book, 1),
    );
    table.add(
        "undo of two segments",
        &full,
        |lent| calls::undo(&mut lent.book),
        |lent| plain::undo(&mut lent.book),
    );
}

fn writing(table: &mut Table<'_>, books: &[Books]) {
    let full = books.iter().map(|books| Lent {
        places: books.places.clone(),
        out: vec![0; BLOCK_MOST],
        ..Lent::of_book(&books.full)
    });
    let full: Vec<_> = full.collect();
    table.add(
        "write",
        &full,
        |lent| calls::write(&lent.book, 1, &mut lent.out),
        |lent| plain::write(&lent.book, 1, &mut lent.out),
    );
    let purge = black_box(16_994_700);
    table.add(
        "write block of 120 places",
        &full,
        |lent| calls::write_block(&mut lent.out, &lent.places, purge.into()),
        |lent| {
            let places = lent.places.iter().copied();
            let block = plain::written(places, purge, LineEnd::CrCrLf);
            lent.out[..block.len()].copy_from_slice(&block);
            Ok(block.len())
        },
    );
}

/// The edited bulletin of each text and a book of it, into an output.
fn edited(table: &mut Table<'_>, name: &str, texts: &[Vec<u8>], book: impl Fn(usize) -> Vec<u8>) {
    let inputs = texts.iter().enumerate().map(|(index, text)| Lent {
        book: book(index),
        out: vec![0; EDITED_MOST],
        ..Lent::of_text(text)
    });
    table.add(
        &format!("write edited {name}"),
        &inputs.collect::<Vec<_>>(),
        |lent| calls::write_edited(&lent.text, &lent.book, &mut lent.out),
        |lent| plain::write_edited(&lent.text, &lent.book, &mut lent.out),
    );
}
