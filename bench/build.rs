//! Links the proved static library: SANUVEZH_LIB, or target/staticlib/libqueue_check.a of this repository where it stands.
//! With SANUVEZH_LIB=none, or where no library stands, the native implementation takes its place.

use std::path::PathBuf;

fn main() {
    let here = PathBuf::from(std::env::var("CARGO_MANIFEST_DIR").expect("set by cargo"));
    let usual = here.join("../target/staticlib/libqueue_check.a");
    println!("cargo::rustc-check-cfg=cfg(subject)");
    println!("cargo::rerun-if-env-changed=SANUVEZH_LIB");
    println!("cargo::rerun-if-changed={}", usual.display());
    let library = match std::env::var("SANUVEZH_LIB") {
        Ok(named) if named == "none" => return,
        Ok(named) => PathBuf::from(named).canonicalize().expect("SANUVEZH_LIB names a file"),
        Err(_) => match usual.canonicalize() {
            Ok(usual) => usual,
            Err(_) => return,
        },
    };
    println!("cargo::rerun-if-changed={}", library.display());
    println!("cargo::rustc-cfg=subject");
    println!("cargo::rustc-env=SUBJECT_LIBRARY={}", library.display());
    println!("cargo::rustc-link-arg-bins={}", library.display());
}
