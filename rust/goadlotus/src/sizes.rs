//! Sizes in bytes; `include/goadlotus.h` has the same.

/// The longest domain file that is read; a longer one is refused by 9.
pub const FILE_LIMIT: usize = 65_535;

/// Memory for the report that is enough for every file.
pub const REPORT: usize = 32_768;

/// Memory for the witness that is enough for every file.
pub const WITNESS: usize = 512;

/// The bytes of work memory that playing needs.
pub const WORK: usize = 8_192;

/// Memory for the list of templates that is enough for every file: 64 relations of 7 templates.
pub const TEMPLATES: usize = 1_344;

/// Memory for the answers of trying the facts that is enough for every file: 64 actions of 64 classes.
pub const TRIED: usize = 4_096;

/// The totals of a box: 71 numbers of 8 bytes.
pub const TOTALS: usize = 568;

/// A row of the report.
pub const ROW: usize = 4;

/// An entry of the list of templates.
pub const TEMPLATE: usize = 3;

/// A fact of the witness or of work memory.
pub const FACT: usize = 8;
