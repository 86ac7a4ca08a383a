//! Memory and files to lend, with guards around them.

/// Bytes around lent memory, to be found as they were.
pub const GUARD: usize = 64;

/// Memory to lend, between guards, full of a pattern: no two neighbours alike.
pub struct Memory {
    /// All of it, with the guards.
    pub bytes: Vec<u8>,
    length: usize,
}

impl Memory {
    pub fn new(length: usize, salt: usize) -> Memory {
        let bytes = (0..GUARD + length + GUARD).map(|i| (i * 7 + i / 256 + salt) as u8).collect();
        Memory { bytes, length }
    }

    pub fn lend(&mut self) -> &mut [u8] {
        &mut self.bytes[GUARD..GUARD + self.length]
    }

    pub fn lent(&self) -> &[u8] {
        &self.bytes[GUARD..GUARD + self.length]
    }
}

/// The file to lend: around it stand bytes that would be read as records.
pub struct Lent {
    bytes: Vec<u8>,
    length: usize,
}

impl Lent {
    /// The bytes around it are records that close the file, `closing` being their kind, or no records.
    pub fn new(file: &[u8], closing: u8, salt: usize) -> Lent {
        let around: &[u8] = match salt % 4 {
            0 => &[0, 0, closing, 0],
            1 => &[0, 0, 0, closing, 0],
            2 => &[0xFF],
            _ => &[0],
        };
        let guard = || around.iter().copied().cycle();
        let mut bytes: Vec<u8> = guard().take(GUARD + salt % 8).collect();
        bytes.extend_from_slice(file);
        bytes.extend(guard().take(GUARD));
        Lent { bytes, length: file.len() }
    }

    pub fn lend(&self) -> &[u8] {
        let end = self.bytes.len() - GUARD;
        &self.bytes[end - self.length..end]
    }

    /// Whether file and guards are as they were made.
    pub fn is_untouched(&self, file: &[u8], closing: u8, salt: usize) -> bool {
        self.bytes == Lent::new(file, closing, salt).bytes
    }
}

/// What lent memory holds before a call: no two neighbours alike, and neither all 0 nor all FF.
pub fn pattern(length: usize) -> Vec<u8> {
    (0..length).map(|i| (i * 7 + i / 256 + 0xA5) as u8).collect()
}

/// Lent memory after a call: what was written, then the pattern as it was.
pub fn after(lent: usize, written: &[u8]) -> Vec<u8> {
    let mut memory = pattern(lent);
    memory[..written.len()].copy_from_slice(written);
    memory
}

/// Bytes in hexadecimal, '-' for none.
pub fn hex(bytes: &[u8]) -> String {
    if bytes.is_empty() {
        return "-".to_string();
    }
    bytes.iter().map(|byte| format!("{byte:02x}")).collect()
}
