//! The totals of a box of domain files.

use crate::calls::totals;
use crate::numbers::{Name, Number};
use crate::sizes::TOTALS;

const NUMBERS: usize = 64;
const NAMES: usize = 7;

/// How many files met each number, and how many moments had each name.
#[derive(Clone, Copy, PartialEq, Eq, Debug)]
pub struct Totals {
    pub numbers: [u64; NUMBERS],
    /// In the order of [`Name::ALL`].
    pub names: [u64; NAMES],
}

impl Default for Totals {
    fn default() -> Totals {
        Totals { numbers: [0; NUMBERS], names: [0; NAMES] }
    }
}

impl Totals {
    /// The totals in the memory that a call wrote.
    fn of(memory: &[u8; TOTALS]) -> Totals {
        let at = |place: usize| u64::from_le_bytes(memory[8 * place..8 * place + 8].try_into().expect("8 bytes"));
        Totals { numbers: std::array::from_fn(at), names: std::array::from_fn(|name| at(NUMBERS + name)) }
    }

    pub fn files_with(&self, number: Number) -> u64 {
        self.numbers[number.value() as usize]
    }

    pub fn moments_with(&self, name: Name) -> u64 {
        self.names[name as usize - 1]
    }

    /// All files.
    pub fn files(&self) -> u64 {
        self.numbers.iter().sum()
    }

    /// All moments of the files that were read.
    pub fn moments(&self) -> u64 {
        self.names.iter().sum()
    }

    /// Adds the totals of another box: they are then those of both boxes joined.
    pub fn add(&mut self, other: &Totals) {
        self.numbers.iter_mut().zip(&other.numbers).for_each(|(total, more)| *total += more);
        self.names.iter_mut().zip(&other.names).for_each(|(total, more)| *total += more);
    }
}

/// Counts a box of domain files. Where it is cut, the offset of the length that it is cut in or behind.
pub fn count_box(files: &[u8]) -> Result<Totals, u64> {
    let mut memory = [0; TOTALS];
    let served = totals(files, &mut memory);
    match served.number {
        0 => Ok(Totals::of(&memory)),
        // the contract leaves no other number with memory enough
        _ => Err(served.first),
    }
}

/// Puts a file into a box, behind its length. Panics where 4 bytes don't hold it.
pub fn put_in_box(files: &mut Vec<u8>, file: &[u8]) {
    let length = u32::try_from(file.len()).expect("a file of less than 4 GB");
    files.extend(length.to_le_bytes());
    files.extend_from_slice(file);
}
