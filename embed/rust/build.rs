//! Links the static library. It is looked for where the build in this repository leaves it, or in the folder that the variable
//! PUFFINWIRE_LIB names.

use std::env;
use std::path::PathBuf;

fn main() {
    println!("cargo:rerun-if-env-changed=PUFFINWIRE_LIB");
    let folder = env::var_os("PUFFINWIRE_LIB").map_or_else(
        || PathBuf::from("../../crates/puffinwire/out"),
        PathBuf::from,
    );
    let folder = folder.canonicalize().unwrap_or(folder);
    let library = folder.join("libpuffinwire.a");
    assert!(
        library.is_file(),
        "{} is not there: build it with `rt lib` in crates/puffinwire",
        library.display()
    );
    println!("cargo:rerun-if-changed={}", library.display());
    println!("cargo:rustc-link-search=native={}", folder.display());
    println!("cargo:rustc-link-lib=static=puffinwire");
}
