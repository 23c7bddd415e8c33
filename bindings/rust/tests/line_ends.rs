//! The line ends of what is written. In an edited bulletin all lines of a new
//! block end as the first line of the old block did; the write calls end the
//! lines of a block with CR CR LF.

mod generate;
mod plain;
mod replay;
mod sides;

use generate::{all_end, lines_of, text_ended, Case, Ends, Lent, Rng, LINE_ENDS};
use replay::Calls;
use sides::{Call, Core, Pair, Reader, Tally, Text};

/// Lines 1 and 2 of a bulletin of April 2002.
const HEAD: &str = "FPUS51 KXYZ 240822\nZFPXYZ\n";

/// The edited bulletin of a text of April 2002 and its own book, by both sides.
fn edited(text: &str) -> String {
    let mut book = vec![0; hollgrimsa::BOOK_LENGTH];
    Core.make(text.as_bytes(), 2002, 4, &mut book).unwrap();
    let room = hollgrimsa::EDITED_MOST;
    let written = Pair::new(&book).write_edited(text.as_bytes(), room, &mut Tally::new());
    String::from_utf8(written.unwrap()).unwrap()
}

#[test]
fn a_block_of_two_ends() {
    let text = format!("{HEAD}MDC001-\n242100-\r\n$$\n");
    let right = format!("{HEAD}MDC001-242100-\n$$\n");
    assert_eq!(edited(&text), right);
}

/// Neither a later line of the block nor the lines around it decide.
#[test]
fn the_first_line_decides() {
    for first in LINE_ENDS {
        for (later, around) in pairs() {
            let head = HEAD.replace('\n', around);
            let text =
                format!("{head}MDC001-{first}VAZ002-{later}242100-{later}TEXT{around}$${around}");
            let right = format!("{head}MDC001-VAZ002-242100-{first}TEXT{around}$${around}");
            assert_eq!(edited(&text), right, "{text:?}");
        }
    }
}

fn pairs() -> impl Iterator<Item = (&'static str, &'static str)> {
    let seconds = |first| LINE_ENDS.map(|second| (first, second));
    LINE_ENDS.into_iter().flat_map(seconds)
}

#[test]
fn each_block_by_its_own_first_line() {
    let text = format!(
        "{HEAD}\r\r\nNWS X\r\n\n\
        MDC001-\r\n003-\n242100-\r\r\n\r\r\nONE\n$$\r\n\
        BETWEEN\r\r\n\
        VAZ001-250000-\r\r\nTWO\n$$\n\
        GMZ031-\n052-\r\r\n260000-\r\n$$\r\r\nBEHIND\r\n"
    );
    let right = format!(
        "{HEAD}\r\r\nNWS X\r\n\n\
        MDC001-003-242100-\r\n\r\r\nONE\n$$\r\n\
        BETWEEN\r\r\n\
        VAZ001-250000-\r\r\nTWO\n$$\n\
        GMZ031-052-260000-\n$$\r\r\nBEHIND\r\n"
    );
    assert_eq!(edited(&text), right);
}

/// A block of 120 places, ten on a line, comes out in eight lines.
#[test]
fn a_block_of_many_lines() {
    let numbers: Vec<String> = (0..120).map(|i| format!("{:03}-", 2 * i + 1)).collect();
    let lines: Vec<String> = numbers.chunks(10).map(|line| line.concat()).collect();
    let codes = format!("MDC{}242100-", lines.concat());
    for (first, later) in pairs() {
        let rest = lines[1..].join(later);
        let text = format!(
            "{HEAD}MDC{}{first}{rest}{later}242100-{later}$$\n",
            lines[0]
        );
        let edited = edited(&text);
        let block = edited.strip_prefix(HEAD).unwrap();
        let block = block.strip_suffix("$$\n").unwrap().as_bytes();
        assert!(all_end(block, first.as_bytes()), "{first:?}: {edited:?}");
        let written: Vec<&[u8]> = lines_of(block).map(|(line, _)| line).collect();
        assert_eq!(written.concat(), codes.as_bytes());
        assert_eq!(written.len(), 8);
    }
}

/// A line is full with 66 bytes, whatever ends it.
#[test]
fn a_full_line() {
    let numbers: String = (0..14).map(|i| format!("{:03}-", 2 * i + 1)).collect();
    let codes = format!("AAC{numbers}AAZ001-");
    assert_eq!(codes.len(), 66);
    for end in LINE_ENDS {
        let text = format!("{HEAD}{codes}242100-{end}$$\n");
        let right = format!("{HEAD}{codes}{end}242100-{end}$$\n");
        assert_eq!(edited(&text), right);
    }
}

/// A text with one kind of line ends keeps it.
#[test]
fn texts_of_one_end() {
    let name = "texts of one line end";
    let mut rng = Rng::announced(name, 0x5EED_0051);
    let mut tally = Tally::new();
    for end in LINE_ENDS {
        let mut folded = 0;
        for _ in 0..500 {
            let mut case = Case::of(&mut rng, |rng| text_ended(rng, Ends::All(end)));
            let edited = case.edited(&mut tally);
            assert!(all_end(&edited, end.as_bytes()), "{:?}", Text(&edited));
            let blocks = blocks(&edited, case.lent);
            folded += blocks.filter(|block| is_folded(block)).count();
        }
        println!("{name}: {folded} blocks of several lines that end {end:?}");
        assert!(folded > 0);
    }
}

#[test]
fn texts_of_mixed_ends() {
    let name = "texts of mixed line ends";
    let mut rng = Rng::announced(name, 0x5EED_0052);
    let mut tally = Tally::new();
    // Blocks of several lines, written for blocks whose lines did not all end
    // alike, by the end of the first.
    let mut folded = [0; LINE_ENDS.len()];
    for _ in 0..1_500 {
        let mut case = Case::of(&mut rng, |rng| text_ended(rng, Ends::Mixed));
        let edited = case.edited(&mut tally);
        let (old, new) = (blocks(&case.text, case.lent), blocks(&edited, case.lent));
        for (old, new) in old.zip(new) {
            let (_, first) = lines_of(old).next().unwrap();
            assert!(all_end(new, first), "{:?}: {:?}", Text(old), Text(new));
            if is_folded(new) && !all_end(old, first) {
                let kind = LINE_ENDS.iter().position(|end| end.as_bytes() == first);
                folded[kind.unwrap()] += 1;
            }
        }
    }
    println!("{name}: {folded:?} blocks of several lines, by the first line's end");
    assert!(!folded.contains(&0));
}

/// The blocks of a text's segments.
fn blocks(text: &[u8], (year, month): Lent) -> impl Iterator<Item = &[u8]> {
    let count = Core.head(text, year, month).unwrap().segments;
    (1..=count).map(move |number| {
        let segment = Core.segment(text, year, month, number).unwrap();
        &text[segment.start..segment.block_end]
    })
}

fn is_folded(block: &[u8]) -> bool {
    lines_of(block).count() > 1
}

/// The write call does not know how the lines of the book's text ended.
#[test]
fn the_write_call_keeps_cr_cr_lf() {
    let name = "the write call keeps CR CR LF";
    let mut rng = Rng::announced(name, 0x5EED_0053);
    let mut tally = Tally::new();
    for ends in LINE_ENDS.map(Ends::All).into_iter().chain([Ends::Mixed]) {
        for _ in 0..100 {
            let mut case = Case::of(&mut rng, |rng| text_ended(rng, ends));
            for number in 1..=blocks(&case.text, case.lent).count() {
                let room = hollgrimsa::BLOCK_MOST;
                let write = Call::Write(number);
                let (told, output) = case.pair.perform_seen(write, room, &mut tally);
                let block = &output[..told.unwrap().0];
                assert!(all_end(block, b"\r\r\n"), "{:?}", Text(block));
            }
        }
    }
}
