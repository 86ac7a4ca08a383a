//! P11: "Figures for a whole term."

use crate::domain::read;
use crate::service::Served;
use crate::verdict::{decide, rows};

/// "numbers 0 to 63, then the seven names"
const NUMBERS: usize = 64;
const NAMES: usize = 7;
/// "Totals are 8 bytes, little-endian"
pub const TOTALS_BYTES: usize = 8 * (NUMBERS + NAMES);

/// How many files met each number, and how many moments had each name.
#[derive(Clone, Copy, PartialEq, Eq, Debug)]
pub struct Totals {
    pub numbers: [u64; NUMBERS],
    /// In the order of their numbers 1 to 7.
    pub names: [u64; NAMES],
}

impl Totals {
    fn none() -> Totals {
        Totals { numbers: [0; NUMBERS], names: [0; NAMES] }
    }

    /// "Each file is judged as if with memory enough, so 30 and 31 are never counted. A file refused before
    /// judging is counted under its number and its moments are not."
    fn count(&mut self, file: &[u8]) {
        let number = match read(file) {
            Err(stop) => stop.number,
            Ok(domain) => {
                let rows = rows(&domain);
                for row in &rows {
                    self.names[row.name as usize - 1] += 1;
                }
                decide(&rows).number()
            }
        };
        self.numbers[number as usize] += 1;
    }

    pub fn bytes(&self) -> Vec<u8> {
        self.numbers.iter().chain(&self.names).flat_map(|total| total.to_le_bytes()).collect()
    }
}

/// The files of a box: "a row of files, each preceded by its length in 4 bytes, little-endian". Where it
/// is cut inside a length or a file, the offset of that length.
pub fn files(of: &[u8]) -> Result<Vec<&[u8]>, usize> {
    let mut files = Vec::new();
    let mut at = 0;
    while at < of.len() {
        let (length, rest) = of[at..].split_first_chunk::<4>().ok_or(at)?;
        let length = u32::from_le_bytes(*length) as usize;
        files.push(rest.get(..length).ok_or(at)?);
        at += 4 + length;
    }
    Ok(files)
}

/// Counts the files of a box. "A box cut inside a length or a file gives 33 before any total is reported,
/// with the offset of that length and the totals buffer untouched"; "under 568 bytes gives 30, after 33".
pub fn totals(of: &[u8], memory: &mut [u8]) -> Served {
    let files = match files(of) {
        Ok(files) => files,
        Err(at) => return Served { number: 33, first: at },
    };
    if memory.len() < TOTALS_BYTES {
        return Served { number: 30, first: 0 };
    }
    let mut totals = Totals::none();
    files.iter().for_each(|file| totals.count(file));
    Served::written(memory, &totals.bytes())
}
