//! Links the archive, which stands in the folder that FLOUNDER_ARCHIVES names (`ffi/try` builds it).

use std::env;

fn main() {
    println!("cargo:rerun-if-env-changed=FLOUNDER_ARCHIVES");
    if let Ok(folder) = env::var("FLOUNDER_ARCHIVES") {
        println!("cargo:rustc-link-search=native={folder}");
    }
    println!("cargo:rustc-link-lib=static=fl_c");
    if env::var_os("CARGO_FEATURE_MALLOC").is_some() {
        println!("cargo:rustc-link-lib=static=libc_c");
    }
}
