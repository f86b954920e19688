//! Says where `libupload.a` lies: in the directory that UPLOAD_PLANNER_LIB_DIR
//! names by its absolute path, otherwise in target/staticlib of the repository.

use std::env;
use std::path::{Path, PathBuf};

fn main() {
    println!("cargo:rerun-if-env-changed=UPLOAD_PLANNER_LIB_DIR");
    let directory = match env::var_os("UPLOAD_PLANNER_LIB_DIR") {
        Some(named) => PathBuf::from(named),
        None => {
            let manifest = env::var_os("CARGO_MANIFEST_DIR").expect("set by Cargo");
            Path::new(&manifest).join("../../target/staticlib")
        }
    };
    let archive = directory.join("libupload.a");
    println!("cargo:rerun-if-changed={}", archive.display());
    if !archive.is_file() {
        println!(
            "cargo:warning={} is not there; build it, or name its directory in \
             UPLOAD_PLANNER_LIB_DIR",
            archive.display()
        );
    }
    println!("cargo:rustc-link-search=native={}", directory.display());
}
