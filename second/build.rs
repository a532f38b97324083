//! Links the first program's static library to the comparison run, and to nothing else.

use std::env;
use std::path::Path;

fn main() {
    println!("cargo:rerun-if-changed=build.rs");
    println!("cargo:rerun-if-env-changed=BASMUTHAR_LIB_DIR");
    if env::var_os("CARGO_FEATURE_COMPARE").is_none() {
        return;
    }
    let folder = env::var("BASMUTHAR_LIB_DIR")
        .expect("BASMUTHAR_LIB_DIR names the folder of libbasmuthar.a");
    let library = Path::new(&folder).join("libbasmuthar.a");
    println!("cargo:rerun-if-changed={}", library.display());
    println!("cargo:rustc-link-arg-bin=compare={}", library.display());
}
