//! Writes the folder samples/ at the repository's root, all but its page: the files that `generate::samples` has, with
//! the texts that the verified library gives. The test `samples` then compares them with the model too.

use differential::playing::library;
use differential::samples::{files, folder};
use goadlotus::judge;
use std::fs;
use std::io;

fn main() -> io::Result<()> {
    fs::create_dir_all(folder())?;
    let files = files(judge, library);
    for (name, bytes) in &files {
        fs::write(folder().join(name), bytes)?;
    }
    println!("{} files written to samples/", files.len());
    Ok(())
}
