//! Links libhart.a from the folder that HART_LIB_DIR names.
use std::env;

fn main() {
    println!("cargo:rerun-if-env-changed=HART_LIB_DIR");
    if let Ok(folder) = env::var("HART_LIB_DIR") {
        println!("cargo:rustc-link-search=native={folder}");
    }
    println!("cargo:rustc-link-lib=static=hart");
}
