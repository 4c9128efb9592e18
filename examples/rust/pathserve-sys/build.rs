//! Links the archive in the folder that PATHSERVE_LIB_DIR names: `lib` of a release.
use std::env;

fn main() {
    println!("cargo:rerun-if-env-changed=PATHSERVE_LIB_DIR");
    match env::var("PATHSERVE_LIB_DIR") {
        Ok(folder) => {
            println!("cargo:rustc-link-search=native={folder}");
            println!("cargo:rustc-link-lib=static=pathserve");
        }
        Err(_) => println!("cargo:rustc-link-lib=dylib=pathserve"),
    }
}
