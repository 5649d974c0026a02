//! Links liblimiter.a: from the folder `LIMITER_LIB_DIR` if that is set; else from the folder lib of a package (dist/build) if this crate is in
//! one; else from where bindings/build writes it.
//!
//! Where the library is not there, a warning says so and the build goes on: documentation can be built and code be checked, but no program
//! links. `DOCS_RS` asks for documentation alone.

use std::env;
use std::path::PathBuf;

fn main() {
    println!("cargo::rerun-if-env-changed=LIMITER_LIB_DIR");
    println!("cargo::rerun-if-env-changed=DOCS_RS");
    if env::var_os("DOCS_RS").is_some() {
        return;
    }
    let here = PathBuf::from(env!("CARGO_MANIFEST_DIR"));
    let packed = here.join("../../lib");
    let folder = match env::var_os("LIMITER_LIB_DIR") {
        Some(folder) => PathBuf::from(folder),
        None if packed.join("liblimiter.a").exists() => packed,
        None => here.join("../../../target/library"),
    };
    let library = folder.join("liblimiter.a");
    println!("cargo::rerun-if-changed={}", library.display());
    if !library.exists() {
        println!(
            "cargo::warning={} is not there, so nothing will link: run bindings/build, or set LIMITER_LIB_DIR to a folder that holds it",
            library.display()
        );
        return;
    }
    println!("cargo::rustc-link-search=native={}", folder.display());
    println!("cargo::rustc-link-lib=static=limiter");
}
