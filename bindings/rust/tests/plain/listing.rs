//! The listing of a bulletin.

use std::fmt::Write;

use super::bulletin::{read, Bulletin, Segment};
use super::lines::{self, LineEnd};
use super::refusal::{self, Refusal};
use super::written::compose;

/// The listing of a bulletin of this year and month, or its refusal.
pub fn listing(text: &[u8], year: usize, month: usize) -> String {
    let mut out = String::new();
    match read(text, year, month) {
        Ok(bulletin) => list(&bulletin, &mut out),
        Err(refusal) => list_refusal(refusal, &mut out),
    }
    out
}

/// What the listing program prints for its whole input.
pub fn listing_of_input(input: &[u8]) -> String {
    let parted = input.split_first_chunk::<8>();
    let lent = parted.and_then(|(first, text)| Some((parse_lent(first)?, text)));
    match lent {
        Some(((year, month), text)) => listing(text, year, month),
        None => {
            let mut out = String::new();
            list_refusal(Refusal::plain(refusal::OUT_OF_RANGE), &mut out);
            out
        }
    }
}

/// `YYYY MM` and LF.
fn parse_lent(line: &[u8; 8]) -> Option<(usize, usize)> {
    let [year @ .., b' ', m1, m2, b'\n'] = line else {
        return None;
    };
    Some((
        lines::number(year)? as usize,
        lines::number(&[*m1, *m2])? as usize,
    ))
}

fn list(bulletin: &Bulletin, out: &mut String) {
    let heading = &bulletin.heading;
    out.push('H');
    push_field(&heading.ttaaii, out);
    push_field(&heading.cccc, out);
    push_field(&heading.ddhhmm, out);
    push_field(heading.bbb.as_ref().map_or(b"-", |bbb| bbb), out);
    push_field(&bulletin.identifier, out);
    match bulletin.storm {
        Some(storm) => write_line(out, format_args!(" {storm}")),
        None => out.push_str(" -\n"),
    }
    for (number, segment) in (1..).zip(&bulletin.segments) {
        list_segment(number, segment, out);
    }
}

fn list_segment(number: usize, segment: &Segment, out: &mut String) {
    let Segment { purge, places, .. } = segment;
    let _ = write!(out, "S {number} {purge} {} ", places.len());
    // Only the elements are listed, so that no line end shows.
    compose(places.iter().copied(), *purge, LineEnd::Lf, |part| {
        if part.last() == Some(&b'-') {
            push_ascii(part, out);
        }
    });
    out.push('\n');
}

fn list_refusal(Refusal { number, place }: Refusal, out: &mut String) {
    write_line(out, format_args!("R {number} {place}"));
}

fn push_field(field: &[u8], out: &mut String) {
    out.push(' ');
    push_ascii(field, out);
}

fn push_ascii(bytes: &[u8], out: &mut String) {
    out.extend(bytes.iter().map(|&b| char::from(b)));
}

fn write_line(out: &mut String, line: std::fmt::Arguments<'_>) {
    // Writing to a string never fails.
    let _ = writeln!(out, "{line}");
}
