//! Links the port's static library, `libcapi.a`, from the folder that CAPI_DIR names.

use std::{env, path::Path, process::exit};

fn main() {
    println!("cargo:rerun-if-env-changed=CAPI_DIR");
    let folder = env::var("CAPI_DIR").unwrap_or_else(|_| {
        fail("CAPI_DIR is not set: it names the folder of libcapi.a, which `rt lib` in crates/capi writes")
    });
    let library = Path::new(&folder).join("libcapi.a");
    if !library.is_absolute() {
        fail(&format!("CAPI_DIR must be a path from the root, and is {folder}"));
    }
    if !library.is_file() {
        fail(&format!("there is no {}: `rt lib` in crates/capi writes it", library.display()));
    }
    println!("cargo:rerun-if-changed={}", library.display());
    println!("cargo:rustc-link-search=native={folder}");
    println!("cargo:rustc-link-lib=static=capi");
}

/// Ends the build with one line: cargo fails where a script has logged an error.
fn fail(why: &str) -> ! {
    println!("cargo::error={why}");
    exit(0)
}
