//! What a service on one file answers. P5: "This and every later service on one file gives that file's
//! refusal first; a new service, once done, answers 0 with the number of bytes written as first place."

use crate::domain::Stop;

/// The number, with its first place.
#[derive(Clone, Copy, PartialEq, Eq, Debug)]
pub struct Served {
    pub number: u8,
    pub first: usize,
}

impl Served {
    pub fn refused(stop: Stop) -> Served {
        Served { number: stop.number, first: stop.place }
    }

    /// Writes the bytes if there is room for all of them. "A list buffer too short for the whole gives 30
    /// and is untouched."
    pub fn written(memory: &mut [u8], bytes: &[u8]) -> Served {
        match memory.get_mut(..bytes.len()) {
            None => Served { number: 30, first: 0 },
            Some(front) => {
                front.copy_from_slice(bytes);
                Served { number: 0, first: bytes.len() }
            }
        }
    }
}
