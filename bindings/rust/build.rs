//! Finds the static library: in HPF_LIB_DIR, else in target/staticlib of the repository.

use std::env;
use std::path::PathBuf;

fn main() {
    println!("cargo::rerun-if-env-changed=HPF_LIB_DIR");
    let folder = match env::var_os("HPF_LIB_DIR") {
        Some(folder) => PathBuf::from(folder),
        None => PathBuf::from(env!("CARGO_MANIFEST_DIR")).join("../../target/staticlib"),
    };
    let archive = folder.join("libremap.a");
    println!("cargo::rerun-if-changed={}", archive.display());
    if archive.is_file() {
        println!("cargo::rustc-link-search=native={}", folder.display());
        println!("cargo::rustc-link-lib=static=remap");
    } else {
        println!(
            "cargo::error={} is missing: make it with `tools/build.sh` in the root of the \
             repository, or let HPF_LIB_DIR name the folder that has it",
            archive.display()
        );
    }
}
