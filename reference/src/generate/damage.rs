//! Files that were damaged after they were written.

use super::draft::record;
use super::edges::edge;
use super::rng::Rng;
use super::sound::small;
use crate::file::{DAY_WORDS, MONTH_WORDS, RESOURCE_WORDS};

/// A file with one or two damages, to whole records or to its bytes.
pub fn damaged(rng: &mut Rng) -> Vec<u8> {
    let draft = match rng.below(4) {
        0 => edge(rng),
        _ => small(rng),
    };
    let mut records = draft.records();
    let (to_records, to_bytes) =
        *rng.pick(&[(1, 0), (1, 0), (2, 0), (0, 1), (0, 1), (0, 2), (1, 1)]);
    for _ in 0..to_records {
        damage_records(rng, &mut records);
    }
    let mut file = records.concat();
    for _ in 0..to_bytes {
        damage_bytes(rng, &mut file);
    }
    file
}

fn damage_records(rng: &mut Rng, records: &mut Vec<Vec<u8>>) {
    if records.is_empty() {
        return;
    }
    let place = rng.below(records.len());
    let other = rng.below(records.len());
    match rng.below(9) {
        0 => records.swap(place, other),
        1 => {
            let again = records[place].clone();
            records.insert(place, again);
        }
        2 => {
            let again = records[place].clone();
            records.insert(other, again);
        }
        3 => {
            records.remove(place);
        }
        4 => rng.shuffle(records),
        // The second word is the number of a resource.
        5 => set_word(
            &mut records[place],
            1,
            *rng.pick(&[0, 1, 2, 3, 64, u32::MAX]),
        ),
        6 => set_word(&mut records[place], 0, unknown_kind(rng)),
        // A record of another kind and length.
        7 => set_word(&mut records[place], 0, rng.within(1..=3)),
        _ => {
            let words = *rng.pick(&[MONTH_WORDS, RESOURCE_WORDS, DAY_WORDS]);
            let kind = match words {
                MONTH_WORDS => 1,
                RESOURCE_WORDS => 2,
                _ => 3,
            };
            let blank = (0..words).map(|word| if word == 0 { kind } else { 0 });
            records.insert(place, record(blank));
        }
    }
}

fn damage_bytes(rng: &mut Rng, file: &mut Vec<u8>) {
    match rng.below(14) {
        0 => file.clear(),
        1 => file.truncate(rng.below(4)),
        2..=4 => file.truncate(rng.below(file.len() + 1)),
        5 => file.truncate(file.len().saturating_sub(rng.below(5))),
        6 => {
            let extra = rng.below(8);
            file.extend((0..extra).map(|_| rng.word() as u8));
        }
        7 => {
            let kind = *rng.pick(&[0, 1, 2, 3, 4, u32::MAX]);
            file.extend(kind.to_be_bytes());
        }
        8 => {
            let extra = rng.below(8);
            file.extend(vec![0; extra]);
        }
        9..=10 if !file.is_empty() => {
            let place = rng.below(file.len());
            file[place] = rng.word() as u8;
        }
        11 => {
            // Least significant byte first, the wrong way round.
            file.chunks_exact_mut(4).for_each(<[u8]>::reverse);
        }
        12 if rng.one_in(2) => file.fill(0xff),
        _ if file.len() >= 4 => {
            let value = match rng.below(3) {
                0 => rng.word(),
                1 => rng.within(0..=4),
                _ => u32::MAX,
            };
            let place = rng.below(file.len() / 4);
            set_word(file, place, value);
        }
        _ => {}
    }
}

fn unknown_kind(rng: &mut Rng) -> u32 {
    match rng.below(5) {
        0 => 0,
        1 => 4,
        2 => u32::MAX,
        3 => 0x0100_0000,
        _ => rng.word(),
    }
}

fn set_word(bytes: &mut [u8], index: usize, word: u32) {
    bytes[4 * index..][..4].copy_from_slice(&word.to_be_bytes());
}
