//! Boxes of domain files, counted by the library in parts: the totals of boxes joined are the sums of theirs.

use goadlotus::{count_box, put_in_box, Totals};
use std::io::{self, Read};

/// As many bytes are counted at a time, or a file more.
const PART: usize = 1 << 20;

/// Why a box isn't counted.
#[derive(Debug)]
pub enum Uncounted {
    Unread(io::Error),
    /// Cut inside a length or a file: the offset of that length.
    Cut(u64),
}

/// Files counted one behind the other.
#[derive(Default)]
pub struct Counting {
    totals: Totals,
    waiting: Vec<u8>,
}

impl Counting {
    /// Counts a file.
    pub fn file(&mut self, file: &[u8]) {
        put_in_box(&mut self.waiting, file);
        if self.waiting.len() >= PART {
            self.part();
        }
    }

    fn part(&mut self) {
        let totals = count_box(&self.waiting).expect("files behind their lengths are a whole box");
        self.totals.add(&totals);
        self.waiting.clear();
    }

    /// Counts the files of a box, all or none of them; `told` hears how many bytes are counted.
    pub fn whole(&mut self, mut files: impl Read, mut told: impl FnMut(u64)) -> Result<(), Uncounted> {
        let (mut totals, mut part, mut before) = (Totals::default(), Vec::new(), 0);
        loop {
            let wanted = PART.max(2 * part.len()) - part.len();
            let read = files.by_ref().take(wanted as u64).read_to_end(&mut part).map_err(Uncounted::Unread)?;
            let end = if read < wanted { part.len() } else { whole_end(&part) };
            totals.add(&count_box(&part[..end]).map_err(|at| Uncounted::Cut(before + at))?);
            part.drain(..end);
            before += end as u64;
            told(before);
            if read < wanted {
                self.totals.add(&totals);
                return Ok(());
            }
        }
    }

    pub fn end(mut self) -> Totals {
        self.part();
        self.totals
    }
}

/// Where the last file ends that stands whole.
fn whole_end(files: &[u8]) -> usize {
    let mut end = 0;
    while let Some(length) = files[end..].first_chunk::<4>() {
        let length = u32::from_le_bytes(*length) as usize;
        if files.len() - end - 4 < length {
            break;
        }
        end += 4 + length;
    }
    end
}

#[cfg(test)]
mod tests {
    use super::*;

    /// Parts of a box are counted as the box is, and a cut is told with its offset in the box.
    #[test]
    fn in_parts() {
        let mut files = Vec::new();
        for size in [0, 7, 70_000, 3 * PART, 1, 0] {
            put_in_box(&mut files, &vec![0; size]);
        }
        let mut counting = Counting::default();
        counting.whole(&files[..], |_| {}).expect("a whole box");
        assert_eq!(counting.end(), count_box(&files).expect("a whole box"));
        for cut in [1, 3, 5, 11, 100, 80_000, PART + 80_000, files.len() - 1] {
            let expected = count_box(&files[..cut]).expect_err("a cut");
            let mut counting = Counting::default();
            match counting.whole(&files[..cut], |_| {}) {
                Err(Uncounted::Cut(at)) => assert_eq!(at, expected, "cut at {cut}"),
                other => panic!("cut at {cut}: {other:?}"),
            }
            assert_eq!(counting.end(), Totals::default());
        }
    }
}
