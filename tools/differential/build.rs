//! Links `differential` with the static library: TUPLE_LIB names the folder that holds libtuple.a.

use std::path::Path;

fn main() {
    println!("cargo:rerun-if-env-changed=TUPLE_LIB");
    let Ok(folder) = std::env::var("TUPLE_LIB") else {
        println!("cargo:warning=TUPLE_LIB is not set; only fixed-list can be built");
        return;
    };
    let library = Path::new(&folder).join("libtuple.a");
    println!("cargo:rerun-if-changed={}", library.display());
    println!("cargo:rustc-link-arg-bin=differential={}", library.display());
}
