//! Finds libroundcabinet.a and links it.
//!
//! Its folder is ROUNDCABINET_LIB, absolute or seen from this crate; by default the place where `scripts/archive` leaves the archive.

use std::env;
use std::path::PathBuf;

const ARCHIVE: &str = "libroundcabinet.a";

fn main() {
    println!("cargo::rerun-if-env-changed=ROUNDCABINET_LIB");
    println!("cargo::rerun-if-changed=build.rs");
    let folder = folder();
    let archive = folder.join(ARCHIVE);
    println!("cargo::rerun-if-changed={}", archive.display());
    if !archive.is_file() {
        println!("cargo::error={ARCHIVE} is not in {}.", folder.display());
        println!("cargo::error=Make it with `scripts/archive` at the top of the repository,");
        println!("cargo::error=or set ROUNDCABINET_LIB to the folder that has it.");
        return;
    }
    println!("cargo::rustc-link-search=native={}", folder.display());
    println!("cargo::rustc-link-lib=static=roundcabinet");
}

fn folder() -> PathBuf {
    let crate_folder = PathBuf::from(env::var_os("CARGO_MANIFEST_DIR").unwrap_or_default());
    let named = env::var_os("ROUNDCABINET_LIB").filter(|name| !name.is_empty());
    crate_folder.join(named.unwrap_or_else(|| "../../target/staticlib".into()))
}
