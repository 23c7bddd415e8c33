//! Bulletins.

use super::block::{push_block, push_crowded_block, push_time};
use super::{Ends, Rng};

/// The year and month lent with a text.
pub type Lent = (usize, usize);

/// Right ones, the calendar's ends and leap years often.
pub fn lent(rng: &mut Rng) -> Lent {
    let year = match rng.below(4) {
        0 => rng.pick(&[1970, 1971, 1972, 2000, 2098, 2099]),
        _ => rng.within(1970, 2099),
    };
    let month = match rng.below(3) {
        0 => rng.pick(&[1, 2, 12]),
        _ => rng.within(1, 12),
    };
    (year, month)
}

/// A bulletin that is mostly right: short, with a few segments.
pub fn text(rng: &mut Rng) -> Vec<u8> {
    let ends = Ends::any(rng);
    text_ended(rng, ends)
}

/// The same, with these line ends.
pub fn text_ended(rng: &mut Rng, ends: Ends) -> Vec<u8> {
    let segments = match rng.below(8) {
        0 => rng.within(7, 9),
        1 => 0,
        _ => rng.within(1, 4),
    };
    let mut out = Vec::new();
    push_front(rng, ends, &mut out);
    for _ in 0..segments {
        push_segment(rng, ends, 4, &mut out);
    }
    out
}

/// A bulletin whose last block has about 120 places or many more.
pub fn crowded_text(rng: &mut Rng) -> Vec<u8> {
    let ends = Ends::any(rng);
    let mut out = Vec::new();
    push_front(rng, ends, &mut out);
    for _ in 0..rng.below(2) {
        push_segment(rng, ends, 1, &mut out);
    }
    push_crowded_block(rng, ends, &mut out);
    if !rng.once_in(8) {
        out.extend(b"$$");
        ends.push(rng, &mut out);
    }
    out
}

/// A bulletin of 8 segments, filled up to about this length.
pub fn long_text(rng: &mut Rng, length: usize) -> Vec<u8> {
    let ends = Ends::any(rng);
    let mut out = Vec::new();
    push_front(rng, ends, &mut out);
    for _ in 0..8 {
        push_segment(rng, ends, 4, &mut out);
    }
    while out.len() + 132 < length {
        push_words(rng, 132, &mut out);
        ends.push(rng, &mut out);
    }
    let left = length.saturating_sub(out.len());
    if left > 0 {
        let end = ends.pick(rng);
        out.resize(out.len() + left.saturating_sub(end.len()), b'X');
        out.extend(end.bytes());
    }
    out
}

/// A bulletin of about a hundred bytes.
pub fn small_text(rng: &mut Rng) -> Vec<u8> {
    let ends = Ends::any(rng);
    let mut out = Vec::new();
    push_front(rng, ends, &mut out);
    push_segment(rng, ends, 1, &mut out);
    out
}

/// Lines 1 and 2 and, mostly, an MND block between blank lines.
fn push_front(rng: &mut Rng, ends: Ends, out: &mut Vec<u8>) {
    push_heading(rng, out);
    ends.push(rng, out);
    push_identifier(rng, out);
    ends.push(rng, out);
    if rng.once_in(4) {
        return;
    }
    push_blank(rng, ends, out);
    for _ in 0..rng.below(4) {
        push_mnd_line(rng, out);
        ends.push(rng, out);
    }
    if rng.once_in(10) {
        out.extend(b"$$");
        ends.push(rng, out);
    } else {
        push_blank(rng, ends, out);
    }
}

fn push_heading(rng: &mut Rng, out: &mut Vec<u8>) {
    out.extend(std::iter::repeat_with(|| rng.capital()).take(4));
    out.extend([rng.digit(), rng.digit(), b' ']);
    out.extend(std::iter::repeat_with(|| rng.capital()).take(4));
    out.push(b' ');
    push_time(rng, out);
    if rng.once_in(3) {
        out.push(b' ');
        out.extend(rng.pick(&["AA", "CC", "RR"]).bytes());
        let last = rng.capital();
        out.push(if last == b'Y' { b'Z' } else { last });
    }
}

fn push_identifier(rng: &mut Rng, out: &mut Vec<u8>) {
    let used = rng.pick(&[6, 6, 6, 5, 4]);
    for _ in 0..used {
        let (capital, digit) = (rng.capital(), rng.digit());
        out.push(rng.pick(&[capital, capital, capital, digit]));
    }
    out.resize(out.len() + 6 - used, b' ');
}

fn push_blank(rng: &mut Rng, ends: Ends, out: &mut Vec<u8>) {
    if rng.once_in(6) {
        out.resize(out.len() + rng.within(1, 9), b' ');
    }
    ends.push(rng, out);
}

fn push_mnd_line(rng: &mut Rng, out: &mut Vec<u8>) {
    match rng.below(4) {
        0 => push_words(rng, 60, out),
        1 => {
            out.extend(b"NATIONAL WEATHER SERVICE ");
            push_words(rng, 20, out);
        }
        _ => {
            out.extend(
                rng.pick(&["NWS ", "NATIONAL WEATHER SERVICE ", "NWS X "])
                    .bytes(),
            );
            push_storm(rng, out);
        }
    }
}

/// Mostly a right storm identifier.
fn push_storm(rng: &mut Rng, out: &mut Vec<u8>) {
    let basin = match rng.below(12) {
        0 => "AT",
        1 => "A1",
        _ => rng.pick(&["AL", "SL", "EP", "CP", "WP"]),
    };
    let number = rng.pick(&[1, 49, 50, 79, 80, 89, 90, 99, 4, 4, 63, 85, 95, 0]);
    let year = rng.below(10_000);
    out.extend(format!("{basin}{number:02}{year:04}").bytes());
    if rng.once_in(12) {
        out.push(b' ');
    }
}

/// A segment with up to so many lines of text, and what is passed over.
fn push_segment(rng: &mut Rng, ends: Ends, lines: usize, out: &mut Vec<u8>) {
    push_block(rng, ends, out);
    for _ in 0..rng.below(lines + 1) {
        push_line(rng, out);
        ends.push(rng, out);
    }
    out.extend(b"$$");
    ends.push(rng, out);
    if rng.once_in(4) {
        push_passed_over(rng, out);
        ends.push(rng, out);
    }
}

fn push_line(rng: &mut Rng, out: &mut Vec<u8>) {
    match rng.below(12) {
        0 => out.extend(b"MDC001-242100-"),
        1 => out.extend(b"NWS X AL042005"),
        2 => out.extend(b"$$ "),
        3 => {}
        4 => push_words(rng, 132, out),
        _ => push_words(rng, 69, out),
    }
}

fn push_passed_over(rng: &mut Rng, out: &mut Vec<u8>) {
    let lines = [
        "",
        "005-",
        "mdc001-242100-",
        "MDC01-",
        "$$",
        "TEXT",
        "MDC001",
        "MDX001-",
    ];
    out.extend(rng.pick(&lines).bytes());
}

/// Printable bytes, up to so many.
pub fn push_words(rng: &mut Rng, most: usize, out: &mut Vec<u8>) {
    for _ in 0..rng.below(most + 1) {
        let byte = match rng.below(6) {
            0 => b' ',
            1 => rng.within(32, 126) as u8,
            _ => rng.capital(),
        };
        out.push(byte);
    }
}
