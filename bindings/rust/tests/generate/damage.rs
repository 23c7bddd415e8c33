//! Damage done to texts and to the numbers lent with them.

use super::text::Lent;
use super::Rng;

/// Bytes that mean something in a bulletin, and bytes that may not be there.
const TELLING: &[u8] = b"\n\r -$>ACZLYN0123459@[`{\x1f\x7f\x80\xff\x00";

/// Changes a text in one to three places.
pub fn damage(rng: &mut Rng, text: &mut Vec<u8>) {
    for _ in 0..rng.within(1, 3) {
        damage_once(rng, text);
    }
}

fn damage_once(rng: &mut Rng, text: &mut Vec<u8>) {
    if text.is_empty() {
        return text.push(rng.pick(TELLING));
    }
    let at = rng.below(text.len());
    match rng.below(8) {
        0 => text[at] = rng.byte(),
        1 | 2 => text[at] = rng.pick(TELLING),
        3 => text.insert(at, rng.pick(TELLING)),
        4 => drop(text.remove(at)),
        5 => text.truncate(at),
        6 => repeat_part(rng, at, text),
        _ => cut_part(rng, at, text),
    }
}

fn part(rng: &mut Rng, at: usize, text: &[u8]) -> std::ops::Range<usize> {
    let length = rng.pick(&[2, 3, 8, 20, 133]);
    at..(at + length).min(text.len())
}

fn repeat_part(rng: &mut Rng, at: usize, text: &mut Vec<u8>) {
    let part = part(rng, at, text);
    let again = text[part].to_vec();
    text.splice(at..at, again);
}

fn cut_part(rng: &mut Rng, at: usize, text: &mut Vec<u8>) {
    let part = part(rng, at, text);
    text.drain(part);
}

/// A year or month that is mostly wrong.
pub fn damage_lent(rng: &mut Rng, (year, month): Lent) -> Lent {
    let wide = [0, 13, 1969, 2100, 4_294_967_297, 4_294_969_298, usize::MAX];
    if rng.once_in(2) {
        (rng.pick(&wide), month)
    } else {
        (year, rng.pick(&wide))
    }
}
