//! Links `bench` with the static library: TUPLE_LIB names the folder that holds libtuple.a.

use std::path::Path;

fn main() {
    println!("cargo:rerun-if-env-changed=TUPLE_LIB");
    let Ok(folder) = std::env::var("TUPLE_LIB") else {
        println!("cargo:warning=TUPLE_LIB is not set: bench cannot be linked");
        return;
    };
    let library = Path::new(&folder).join("libtuple.a");
    println!("cargo:rerun-if-changed={}", library.display());
    println!("cargo:rustc-link-arg={}", library.display());
}
