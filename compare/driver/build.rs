//! Links libroundcabinet.a from the folder ROUNDCABINET_LIB, and compiles the C file that says how
//! the header lays out its structs.

use std::{env, fs, path::PathBuf, process::Command};

fn main() {
    println!("cargo:rerun-if-env-changed=ROUNDCABINET_LIB");
    let here = PathBuf::from(env::var("CARGO_MANIFEST_DIR").unwrap());
    let out = PathBuf::from(env::var("OUT_DIR").unwrap());
    // A relative folder is seen from the parent of this crate.
    let base = here.parent().unwrap();
    let folder = env::var("ROUNDCABINET_LIB").unwrap_or_else(|_| "../target/staticlib".into());
    let folder = base.join(folder);
    let archive = folder.join("libroundcabinet.a");
    assert!(archive.exists(), "{}: not there; see README.md", archive.display());
    println!("cargo:rerun-if-changed={}", archive.display());
    println!("cargo:rustc-link-search=native={}", folder.display());
    println!("cargo:rustc-link-lib=static=roundcabinet");

    // places.rs includes it, as Rust reads it: without the attributes that speak to Rattle's checker.
    let places = here.join("../../crates/state_bytes/src/lib.rt");
    println!("cargo:rerun-if-changed={}", places.display());
    let text = fs::read_to_string(&places).expect("crates/state_bytes/src/lib.rt");
    let rust: Vec<&str> = text.lines().filter(|line| !line.starts_with("#![tactic(")).collect();
    fs::write(out.join("places.rs"), rust.join("\n")).unwrap();

    let source = here.join("src/layout.c");
    let header = base.join("../include");
    println!("cargo:rerun-if-changed={}", source.display());
    println!("cargo:rerun-if-changed={}", header.join("roundcabinet.h").display());
    let object = out.join("layout.o");
    run(Command::new("cc").arg("-I").arg(&header).arg("-c").arg(&source).arg("-o").arg(&object));
    run(Command::new("ar").arg("crs").arg(out.join("liblayout.a")).arg(&object));
    println!("cargo:rustc-link-search=native={}", out.display());
    println!("cargo:rustc-link-lib=static=layout");
}

fn run(command: &mut Command) {
    assert!(command.status().expect("cc and ar").success(), "{command:?}");
}
