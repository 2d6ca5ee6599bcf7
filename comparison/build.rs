//! Finds the folder with the Rust sources and hands its absolute path to the compiler.

use std::env;
use std::path::PathBuf;

const FILES: [&str; 2] = [
    "lang/crates/vo-app-runtime/src/composition.rs",
    "lang/crates/vo-app-runtime/src/platform_input.rs",
];

fn main() {
    println!("cargo:rerun-if-env-changed=VOLANG_SRC");
    let package = PathBuf::from(env::var("CARGO_MANIFEST_DIR").expect("cargo sets this"));
    let given = env::var("VOLANG_SRC").unwrap_or_else(|_| "../../shared/docs/src".to_string());
    let folder = package.join(given);
    let folder = folder
        .canonicalize()
        .unwrap_or_else(|error| panic!("no folder {}: {error}; set VOLANG_SRC", folder.display()));
    for file in FILES {
        let path = folder.join(file);
        assert!(path.is_file(), "no file {}; set VOLANG_SRC", path.display());
        println!("cargo:rerun-if-changed={}", path.display());
    }
    println!("cargo:rustc-env=VOLANG_SRC_FOLDER={}", folder.display());
}
