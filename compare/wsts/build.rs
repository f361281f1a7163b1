//! Copies the published wsts files, byte for byte, from WSTS_SRC into OUT_DIR, puts the two
//! stand-in files that their `mod` lines ask for beside them, and writes the `mod` lines that
//! lib.rs includes.

use std::{env, fs, path::PathBuf};

const PUBLISHED: [&str; 5] = [
    "net.rs",
    "taproot.rs",
    "state_machine/mod.rs",
    "state_machine/coordinator/mod.rs",
    "state_machine/coordinator/fire.rs",
];

const GAPS: [(&str, &str); 2] =
    [("signer.rs", "state_machine/signer.rs"), ("frost.rs", "state_machine/coordinator/frost.rs")];

fn main() {
    println!("cargo:rerun-if-env-changed=WSTS_SRC");
    let here = PathBuf::from(env::var("CARGO_MANIFEST_DIR").unwrap());
    let out = PathBuf::from(env::var("OUT_DIR").unwrap());
    // A relative WSTS_SRC is seen from the parent of this crate.
    let base = here.parent().unwrap();
    let from = base.join(env::var("WSTS_SRC").unwrap_or_else(|_| "../../shared/docs/src".into()));
    let tree = out.join("published");
    let _ = fs::remove_dir_all(&tree);
    fs::create_dir_all(tree.join("state_machine/coordinator")).unwrap();

    for name in PUBLISHED {
        let source = from.join(name);
        println!("cargo:rerun-if-changed={}", source.display());
        let bytes = fs::read(&source).unwrap_or_else(|e| {
            panic!("{}: {e}; set WSTS_SRC to the folder with net.rs", source.display())
        });
        fs::write(tree.join(name), bytes).unwrap();
    }
    for (name, place) in GAPS {
        let source = here.join("src/published_gaps").join(name);
        println!("cargo:rerun-if-changed={}", source.display());
        fs::copy(&source, tree.join(place)).unwrap();
    }

    let path = |name: &str| tree.join(name);
    let text = format!(
        "#[path = {:?}]\npub mod net;\n\
         #[path = {:?}]\npub mod taproot;\n\
         #[path = {:?}]\npub mod state_machine;\n",
        path("net.rs"),
        path("taproot.rs"),
        path("state_machine/mod.rs"),
    );
    fs::write(out.join("published.rs"), text).unwrap();
}
