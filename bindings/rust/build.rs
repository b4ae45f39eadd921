//! Finds the archive of the proved layer, libexports.a, and has it linked.

use std::path::PathBuf;
use std::{env, process};

const FOLDER: &str = "BIRNENSCHLOSS_LIB";
const ARCHIVE: &str = "libexports.a";

fn main() {
    let manifest = PathBuf::from(env::var_os("CARGO_MANIFEST_DIR").expect("cargo sets it"));
    let folder = match env::var_os(FOLDER) {
        Some(folder) => PathBuf::from(folder),
        None => manifest.join("../../target/staticlib"),
    };
    let archive = folder.join(ARCHIVE);
    println!("cargo:rerun-if-env-changed={FOLDER}");
    println!("cargo:rerun-if-changed={}", archive.display());
    if !archive.is_file() {
        eprintln!("{ARCHIVE} is not in {}.", folder.display());
        eprintln!("Run `tools/build exports` at the top of the repository,");
        eprintln!("or set {FOLDER} to the folder that has it.");
        process::exit(1);
    }
    println!("cargo:rustc-link-search=native={}", folder.display());
    println!("cargo:rustc-link-lib=static=exports");
}
