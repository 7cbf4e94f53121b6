//! Links the static library of the proved calls, from `GUSHTERAL_LIB_DIR` or the folder into which `rt lib` puts it.
use std::{env, path::PathBuf};

fn main() {
    println!("cargo::rerun-if-env-changed=GUSHTERAL_LIB_DIR");
    let here = PathBuf::from(env::var_os("CARGO_MANIFEST_DIR").expect("cargo sets CARGO_MANIFEST_DIR"));
    let folder = match env::var_os("GUSHTERAL_LIB_DIR") {
        Some(folder) => PathBuf::from(folder),
        None => here.join("../../crates/gushteral_c/out"),
    };
    let library = folder.join("libgushteral_c.a");
    println!("cargo::rerun-if-changed={}", library.display());
    if !library.is_file() {
        println!(
            "cargo::error={} is not there: run `rt lib` in crates/gushteral_c, or set GUSHTERAL_LIB_DIR to its absolute folder",
            library.display()
        );
        return;
    }
    println!("cargo::rustc-link-search=native={}", folder.display());
    println!("cargo::rustc-link-lib=static=gushteral_c");
    // The tests compile C programs against the same library.
    println!("cargo::rustc-env=GUSHTERAL_LIBRARY={}", library.display());
}
