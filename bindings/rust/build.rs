//! Has the library proved and built by bindings/library.sh, or takes the one that PRELGAMMO_STATICLIB names, and links it.

use std::path::{Path, PathBuf};
use std::process::Command;
use std::{env, fs};

fn main() {
    println!("cargo:rerun-if-env-changed=PRELGAMMO_STATICLIB");
    let library = match env::var_os("PRELGAMMO_STATICLIB") {
        Some(path) => ready(path.into()),
        None => prove(&root()),
    };
    let out = PathBuf::from(env::var_os("OUT_DIR").expect("cargo sets OUT_DIR"));
    if let Err(error) = fs::copy(&library, out.join("libprelgammo.a")) {
        panic!("{}: {error}", library.display());
    }
    println!("cargo:rustc-link-search=native={}", out.display());
    println!("cargo:rustc-link-lib=static=prelgammo");
}

fn root() -> PathBuf {
    let package = env::var_os("CARGO_MANIFEST_DIR").expect("cargo sets CARGO_MANIFEST_DIR");
    Path::new(&package).join("../..")
}

fn ready(library: PathBuf) -> PathBuf {
    println!("cargo:rerun-if-changed={}", library.display());
    library
}

// Only crates that have changed since they were last proved are proved again.
fn prove(root: &Path) -> PathBuf {
    for part in ["crates.txt", "tools/declarations.py"] {
        println!("cargo:rerun-if-changed={}", root.join(part).display());
    }
    // Not the whole of a crate: rt keeps its own work in out/.
    for each in fs::read_dir(root.join("crates")).expect("crates/ stands at the top").flatten() {
        for part in ["src", "specs", "proofs"].map(|name| each.path().join(name)) {
            if part.exists() {
                println!("cargo:rerun-if-changed={}", part.display());
            }
        }
    }
    match Command::new("sh").arg("bindings/library.sh").current_dir(root).status() {
        Ok(status) if status.success() => root.join("target/bindings/libprelgammo.a"),
        Ok(status) => panic!(
            "bindings/library.sh: {status}; it needs rt, the Rattle kit's command, python3 and cc. PRELGAMMO_STATICLIB may name a libprelgammo.a instead"
        ),
        Err(error) => panic!("sh: {error}"),
    }
}
