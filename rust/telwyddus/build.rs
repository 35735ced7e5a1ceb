//! Links the library for C. TELWYDDUS_LIBRARY names the folder of a libtelwyddus.a, which `tools/install` makes. Without
//! it, the shared library of the system is linked.
use std::env;

fn main() {
    println!("cargo:rerun-if-env-changed=TELWYDDUS_LIBRARY");
    match env::var("TELWYDDUS_LIBRARY") {
        Ok(folder) => {
            println!("cargo:rerun-if-changed={folder}/libtelwyddus.a");
            println!("cargo:rustc-link-search=native={folder}");
            println!("cargo:rustc-link-lib=static=telwyddus");
        }
        Err(_) => println!("cargo:rustc-link-lib=dylib=telwyddus"),
    }
}
