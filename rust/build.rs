// Links the static library that `./build` writes. BEZOWIK_LIB names its folder; without it that is ../target/staticlib.
use std::path::PathBuf;

/// Tells cargo where the library is, or the reader that it is not there.
fn main() {
    let here = PathBuf::from(std::env::var("CARGO_MANIFEST_DIR").expect("cargo sets it"));
    let folder = std::env::var("BEZOWIK_LIB").map(PathBuf::from).unwrap_or_else(|_| here.join("../target/staticlib"));
    let library = folder.join("libbezowik.a");
    println!("cargo:rerun-if-env-changed=BEZOWIK_LIB");
    println!("cargo:rerun-if-changed={}", library.display());
    if !library.is_file() {
        eprintln!("no libbezowik.a in {}: run `./build` first", folder.display());
        std::process::exit(1);
    }
    println!("cargo:rustc-link-search=native={}", folder.display());
    println!("cargo:rustc-link-lib=static=bezowik");
}
