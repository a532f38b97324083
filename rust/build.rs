//! Finds libbasmuthar.a: in the folder that BASMUTHAR_LIB_DIR names, or else in ../target/staticlib.
//!
//! With the feature `ipasir`, the examples are linked with the solver that the words of IPASIR_LIBS name for the linker, or
//! else with CaDiCaL, which is written in C++.

use std::env;
use std::path::{Path, PathBuf};
use std::process;

fn main() {
    println!("cargo:rerun-if-env-changed=BASMUTHAR_LIB_DIR");
    let folder = library_folder();
    let library = folder.join("libbasmuthar.a");
    println!("cargo:rerun-if-changed={}", library.display());
    if !library.exists() {
        eprintln!("There is no {}.", library.display());
        eprintln!(
            "Make it with `tools/build.sh library`, or name its folder in BASMUTHAR_LIB_DIR."
        );
        process::exit(1);
    }
    println!("cargo:rustc-link-search=native={}", folder.display());
    println!("cargo:rustc-link-lib=static=basmuthar");
    if env::var_os("CARGO_FEATURE_IPASIR").is_some() {
        link_solver();
    }
}

fn link_solver() {
    println!("cargo:rerun-if-env-changed=IPASIR_LIBS");
    let words =
        env::var("IPASIR_LIBS").unwrap_or_else(|_| "-lcadical -lstdc++ -lm -lc".to_string());
    for word in words.split_whitespace() {
        println!("cargo:rustc-link-arg-examples={word}");
    }
}

/// A relative folder is meant from this crate's own.
fn library_folder() -> PathBuf {
    let here = env::var_os("CARGO_MANIFEST_DIR").expect("cargo names the crate's folder");
    let named = env::var_os("BASMUTHAR_LIB_DIR").unwrap_or_else(|| "../target/staticlib".into());
    Path::new(&here).join(named)
}
