//! Services that write one memory, against the model: number, place, and every byte of the memory lent.

use crate::memory::{after, hex, pattern, Lent, Memory};
use crate::seeds::{add_counts, Counted};
pub use goadlotus::Served;
use std::collections::BTreeMap;

/// What is compared with the model.
pub trait Serve: Fn(&[u8], &mut [u8]) -> Served + Sync {}
impl<F: Fn(&[u8], &mut [u8]) -> Served + Sync> Serve for F {}

/// A service, by the library and by the model.
#[derive(Clone, Copy)]
pub struct Service {
    pub library: fn(&[u8], &mut [u8]) -> Served,
    model: fn(&[u8], &mut [u8]) -> model::Served,
    /// Memory that is enough for every file.
    most: usize,
}

/// P5: every one-relation template.
pub const TEMPLATES: Service =
    Service { library: goadlotus::templates, model: model::templates, most: goadlotus::TEMPLATES };

/// P10: trying the facts themselves.
pub const TRY: Service = Service { library: goadlotus::try_facts, model: model::try_facts, most: goadlotus::TRIED };

/// P11: figures for a box of files.
pub const TOTALS: Service = Service { library: goadlotus::totals, model: model::totals, most: goadlotus::TOTALS };

/// The kind of the record that closes a domain file.
const CLOSING: u8 = 5;

impl Service {
    /// The model, answering in the library's form.
    pub fn model(&self, file: &[u8], memory: &mut [u8]) -> Served {
        let served = (self.model)(file, memory);
        Served { number: served.number.into(), first: served.first as u64 }
    }

    /// Lengths to lend: none, one byte short, exact, one more, plenty; for a file that is refused none, a byte, and what
    /// would be enough for every file.
    pub fn lengths(&self, file: &[u8]) -> Vec<usize> {
        let served = self.model(file, &mut vec![0; self.most]);
        let room = served.first as usize;
        let mut lengths = match served.number {
            0 => vec![0, room.saturating_sub(1), room, room + 1, room + 50],
            _ => vec![0, 1, self.most],
        };
        lengths.dedup();
        lengths
    }

    /// Serves one file in memory of this length, and compares; what both say, or how they differ.
    pub fn compare(&self, service: impl Serve, file: &[u8], lent: usize, salt: usize) -> Result<Served, String> {
        let mut expected_memory = Memory::new(lent, salt);
        let expected = self.model(file, expected_memory.lend());
        let lent_file = Lent::new(file, CLOSING, salt);
        let mut got_memory = Memory::new(lent, salt);
        let got = service(lent_file.lend(), got_memory.lend());
        let same_file = lent_file.is_untouched(file, CLOSING, salt);
        if got == expected && same_file && got_memory.bytes == expected_memory.bytes {
            return Ok(got);
        }
        let mut text = format!("file, {} bytes: {}\nlent: {lent}; salt {salt}\n", file.len(), hex(file));
        let mark = |same: bool| if same { "same" } else { "DIFFERENT" };
        text += &format!("answer, {}\n  service {got:?}\n  model   {expected:?}\n", mark(got == expected));
        let same = got_memory.bytes == expected_memory.bytes;
        text += &format!("memory with its guards, {}\n", mark(same));
        text += &format!("  service {}\n  model   {}\n", hex(&got_memory.bytes), hex(&expected_memory.bytes));
        if !same_file {
            text += "the file, or a byte beside it, was written to: DIFFERENT\n";
        }
        Err(text)
    }

    /// The same at every length.
    pub fn compare_all(&self, service: impl Serve, file: &[u8], salt: usize) -> Result<Counts, String> {
        let mut counts = Counts::default();
        for (number, lent) in self.lengths(file).into_iter().enumerate() {
            let served = self.compare(&service, file, lent, salt + 17 * number)?;
            counts.cases += 1;
            *counts.numbers.entry(served.number).or_default() += 1;
        }
        Ok(counts)
    }
}

/// How often each number occurred.
#[derive(Clone, PartialEq, Eq, Debug, Default)]
pub struct Counts {
    pub cases: u64,
    pub numbers: BTreeMap<u64, u64>,
}

impl Counted for Counts {
    fn add(&mut self, other: &Counts) {
        self.cases += other.cases;
        add_counts(&mut self.numbers, &other.numbers);
    }

    fn cases(&self) -> u64 {
        self.cases
    }
}

/// Serves in memory of this length; panics unless this comes back and this is written.
#[track_caller]
pub fn expect(service: impl Serve, name: &str, file: &[u8], lent: usize, told: Served, written: &[u8]) {
    let mut memory = pattern(lent);
    let got = service(file, &mut memory);
    let file = hex(file);
    assert_eq!(got, told, "{name}, lent {lent}: {file}");
    assert_eq!(memory, after(lent, written), "{name}, lent {lent}: {file}");
}
