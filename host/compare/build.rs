//! Links the static library, which lies in the folder that TAP_LIBRARY names.

use std::path::Path;

fn main() {
    println!("cargo:rerun-if-env-changed=TAP_LIBRARY");
    let folder = std::env::var("TAP_LIBRARY").unwrap_or_default();
    let library = Path::new(&folder).join("libchost.a");
    if !library.is_file() {
        eprintln!("TAP_LIBRARY has to name the folder of libchost.a; host/run builds it and sets the name");
        std::process::exit(1);
    }
    println!("cargo:rerun-if-changed={}", library.display());
    println!("cargo:rustc-link-search=native={folder}");
    println!("cargo:rustc-link-lib=static=chost");
}
