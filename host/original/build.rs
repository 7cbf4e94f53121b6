//! Writes the module lines that take the crate's files from the folder in `GIX_VALIDATE_SRC`.
use std::{env, fs, path::PathBuf};

fn main() {
    println!("cargo::rerun-if-env-changed=GIX_VALIDATE_SRC");
    let Some(folder) = env::var_os("GIX_VALIDATE_SRC") else {
        println!(
            "cargo::error=set GIX_VALIDATE_SRC to the folder with gix-validate's tag.rs, reference.rs and path.rs"
        );
        return;
    };
    let mut modules = String::new();
    for name in ["tag", "reference", "path"] {
        let file = PathBuf::from(&folder).join(name).with_extension("rs");
        let Ok(file) = file.canonicalize() else {
            println!("cargo::error={} is not there", file.display());
            return;
        };
        println!("cargo::rerun-if-changed={}", file.display());
        modules +=
            &format!("/// The crate's own {name}.rs.\n#[allow(clippy::all)]\n#[path = {file:?}]\npub mod {name};\n");
    }
    let out = PathBuf::from(env::var_os("OUT_DIR").expect("cargo sets OUT_DIR"));
    fs::write(out.join("modules.rs"), modules).expect("OUT_DIR can be written to");
}
