// Links libheadset.a, from the folder that WAYS_LIBRARY names, else from the repository's target/staticlib/.
use std::path::PathBuf;

fn main() {
    let here = PathBuf::from(std::env::var("CARGO_MANIFEST_DIR").unwrap());
    let folder = match std::env::var("WAYS_LIBRARY") {
        Ok(folder) => PathBuf::from(folder),
        Err(_) => here.join("../../target/staticlib"),
    };
    let library = folder.join("libheadset.a");
    if !library.is_file() {
        panic!("there is no {}: `bash host/run library` writes it", library.display());
    }
    println!("cargo:rustc-link-search=native={}", folder.display());
    println!("cargo:rustc-link-lib=static=headset");
    println!("cargo:rerun-if-changed={}", library.display());
    println!("cargo:rerun-if-env-changed=WAYS_LIBRARY");
}
