//! Finds the static library: in SMOKEGRID_LIB_DIR, or where `rust/library` leaves it.

use std::env;
use std::path::PathBuf;

const LIBRARY: &str = "libsmokegrid.a";

fn main() {
    let folder = match env::var_os("SMOKEGRID_LIB_DIR") {
        Some(folder) => PathBuf::from(folder),
        None => PathBuf::from(env!("CARGO_MANIFEST_DIR")).join("../../target/staticlib"),
    };
    let library = folder.join(LIBRARY);
    println!("cargo:rerun-if-env-changed=SMOKEGRID_LIB_DIR");
    println!("cargo:rerun-if-changed={}", library.display());
    if !library.is_file() {
        eprintln!("{} is not there.", library.display());
        eprintln!("Make it with `rust/library` in the repository's root,");
        eprintln!("or name the folder that holds {LIBRARY} in SMOKEGRID_LIB_DIR.");
        std::process::exit(1);
    }
    println!("cargo:rustc-link-search=native={}", folder.display());
    println!("cargo:rustc-link-lib=static=smokegrid");
}
