//! Links libgoadlotus.a: of the folder that GOADLOTUS_LIB names, or of the checkout or the release that this crate stands in.

use std::env;
use std::path::{Path, PathBuf};

const LIBRARY: &str = "libgoadlotus.a";

fn main() {
    println!("cargo::rerun-if-changed=build.rs");
    println!("cargo::rerun-if-env-changed=GOADLOTUS_LIB");
    match folder() {
        Ok(folder) => {
            println!("cargo::rustc-link-search=native={}", folder.display());
            println!("cargo::rustc-link-lib=static=goadlotus");
        }
        Err(why) => println!("cargo::error={why}"),
    }
}

/// The folder with the library, or why there is none.
fn folder() -> Result<PathBuf, String> {
    if let Some(named) = env::var_os("GOADLOTUS_LIB") {
        let lacking = || format!("GOADLOTUS_LIB names {}, and {LIBRARY} is missing there", Path::new(&named).display());
        return with_library(Path::new(&named)).ok_or_else(lacking);
    }
    let here = env::var_os("CARGO_MANIFEST_DIR").ok_or("CARGO_MANIFEST_DIR is missing: run this through cargo")?;
    let beside = |path| with_library(&Path::new(&here).join(path));
    // a checkout has the one, a release the other
    beside("../../crates/goadlotus/out").or_else(|| beside("../../lib")).ok_or_else(|| {
        format!("{LIBRARY} is missing: run rt lib in crates/goadlotus of a checkout, or set GOADLOTUS_LIB to the folder that has it")
    })
}

/// The folder, if the library is there. It is looked for again whenever that changes.
fn with_library(folder: &Path) -> Option<PathBuf> {
    let library = folder.join(LIBRARY);
    println!("cargo::rerun-if-changed={}", library.display());
    library.is_file().then(|| folder.to_path_buf())
}
