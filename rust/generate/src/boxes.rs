//! Boxes of domain files: files in a row, each behind its length.

use crate::domains::{damaged, near_limit, random, valid, valid_of, Plan, MOODS, SMALL};
use crate::records::junk;
use crate::rng::Rng;

/// The box of these files.
pub fn packed(files: &[Vec<u8>]) -> Vec<u8> {
    let mut all = Vec::new();
    for file in files {
        all.extend((file.len() as u32).to_le_bytes());
        all.extend(file);
    }
    all
}

/// A small file that is well-formed.
pub fn small(rng: &mut Rng) -> Plan {
    let mood = rng.pick(&MOODS);
    valid_of(rng, mood, SMALL)
}

/// Any domain file, short ones more often.
pub fn any_file(rng: &mut Rng) -> Vec<u8> {
    match rng.below(200) {
        0..=79 => small(rng).file(),
        80..=129 => valid(rng).file(),
        130..=179 => damaged(rng),
        180..=195 => random(rng),
        196..=197 => Vec::new(),
        _ => near_limit(rng),
    }
}

/// So many files, or fewer.
pub fn any_files(rng: &mut Rng, most: usize) -> Vec<Vec<u8>> {
    let count = rng.small(0, most).max(rng.below(3));
    (0..count).map(|_| any_file(rng)).collect()
}

/// A box of any files, now and then cut, with bytes behind it, or with a length that is wrong.
pub fn any_box(rng: &mut Rng) -> Vec<u8> {
    let files = any_files(rng, 12);
    let mut all = packed(&files);
    match rng.below(10) {
        0 if !all.is_empty() => {
            // anywhere, or inside the last file or its length
            let last = files.last().map_or(0, |file| file.len() + 4);
            let from = if rng.chance(50) { 0 } else { all.len() - last };
            all.truncate(rng.range(from, all.len() - 1));
        }
        1 => all.extend(junk(rng)),
        2 if !all.is_empty() => {
            let before: usize = files[..rng.below(files.len())].iter().map(|file| file.len() + 4).sum();
            let place = before + rng.below(4);
            all[place] = rng.pick(&[0, 1, 0x7F, 0x80, 0xFF]);
        }
        3 => all.extend([0xFF, 0xFF, 0xFF, 0xFF]),
        _ => {}
    }
    all
}
