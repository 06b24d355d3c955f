//! Finds libtuple.a: in the folder that TUPLE_LIB_DIR names, else in ../target/staticlib, where `tools/library.sh` writes it.

use std::env;
use std::path::PathBuf;

fn main() {
    println!("cargo::rerun-if-env-changed=TUPLE_LIB_DIR");
    let (folder, named) = match env::var_os("TUPLE_LIB_DIR") {
        Some(folder) => (PathBuf::from(folder), true),
        None => {
            let manifest = env::var_os("CARGO_MANIFEST_DIR").expect("cargo sets CARGO_MANIFEST_DIR");
            (PathBuf::from(manifest).join("../target/staticlib"), false)
        }
    };
    let library = folder.join("libtuple.a");
    println!("cargo::rerun-if-changed={}", library.display());
    if !library.is_file() {
        let how = if named {
            "TUPLE_LIB_DIR must name the folder that holds libtuple.a (a whole path, or one from this crate's folder)"
        } else {
            "run `tools/library.sh` in the repository, or set TUPLE_LIB_DIR to the folder that holds libtuple.a"
        };
        println!("cargo::error=there is no {}: {how}", library.display());
        return;
    }
    println!("cargo::rustc-link-search=native={}", folder.display());
    println!("cargo::rustc-link-lib=static=tuple");
}
