//! Blocks written by the core and by the plain implementation.

mod generate;
mod plain;
mod replay;
mod sides;

use generate::{all_end, ascending_places, Rng};
use sides::{Core, Guarded, Plain, Reader, Tally};

/// The first minute that no block can have.
const MINUTES_END: usize = 68_418_720;

#[test]
fn blocks() {
    let name = "blocks";
    let mut rng = Rng::announced(name, 0x5EED_0021);
    let mut tally = Tally::new();
    for _ in 0..20_000 {
        let places = places(&mut rng);
        let purge = purge(&mut rng);
        let length = compare(&places, purge, hollgrimsa::BLOCK_MOST, &mut tally);
        let rooms = match length {
            Some(length) => [0, length - 1, length, length + 1],
            None => [0, 1, 17, 100],
        };
        for room in rooms {
            compare(&places, purge, room, &mut tally);
        }
    }
    tally.assert_seen(name, [0, 23, 24]);
}

/// Right ones mostly, up to 120; else too few, too many, not ascending or out
/// of range.
fn places(rng: &mut Rng) -> Vec<u32> {
    let count = match rng.below(8) {
        0 => rng.pick(&[0, 119, 120, 121, 122, 300]),
        1 => rng.within(1, 120),
        _ => rng.within(1, 12),
    };
    let mut places = ascending_places(rng, count);
    if rng.once_in(6) && count > 0 {
        let at = rng.below(count);
        let near = places[at.saturating_sub(1)];
        places[at] = rng.pick(&[near, 1_351_999, 1_352_000, 0, u32::MAX]);
    }
    places
}

fn purge(rng: &mut Rng) -> usize {
    match rng.below(8) {
        0 => rng.pick(&[0, MINUTES_END - 1, MINUTES_END, MINUTES_END + 1]),
        1 => rng.pick(&[u32::MAX as usize, 1 << 32, usize::MAX]),
        _ => rng.below(MINUTES_END),
    }
}

/// Writes on both sides; answers the length where it is accepted. All lines end
/// CR CR LF.
fn compare(places: &[u32], purge: usize, room: usize, tally: &mut Tally) -> Option<usize> {
    let untouched = Guarded::filled(room, 0x5A);
    let (mut core, mut plain) = (untouched.clone(), untouched.clone());
    let answer = Core.write_block(core.lent_mut(), places, purge);
    let right = Plain.write_block(plain.lent_mut(), places, purge);
    tally.note(&answer);
    assert_eq!(answer, right, "{places:?} {purge} in {room}");
    assert_eq!(core, plain, "{places:?} {purge} in {room}");
    match answer {
        Ok(length) => {
            let block = &core.lent()[..length];
            assert!(all_end(block, b"\r\r\n"), "{places:?} {purge}");
            Some(length)
        }
        Err(_) => {
            assert_eq!(core, untouched, "{places:?} {purge} in {room}");
            None
        }
    }
}
