//! Links `libnibcobalt.a`. `NIBCOBALT_LIB` names its folder, absolute or relative to this package; without it, the
//! folder that `host/library` writes to is taken.

use std::env;
use std::path::PathBuf;

fn main() {
    println!("cargo:rerun-if-env-changed=NIBCOBALT_LIB");
    let package = PathBuf::from(env::var("CARGO_MANIFEST_DIR").expect("cargo sets this"));
    let given = env::var("NIBCOBALT_LIB").unwrap_or_else(|_| "../target/library".to_string());
    let folder = package.join(given);
    let library = folder.join("libnibcobalt.a");
    assert!(
        library.is_file(),
        "no file {}; run host/library, or set NIBCOBALT_LIB",
        library.display()
    );
    println!("cargo:rerun-if-changed={}", library.display());
    println!("cargo:rustc-link-search=native={}", folder.display());
    println!("cargo:rustc-link-lib=static=nibcobalt");
}
