//! Links the archive of crate `c_interface`, which `host/run` puts there. WHY_ARCHIVE names its folder where it is another one.
use std::path::PathBuf;

fn main() {
    let here = PathBuf::from(std::env::var("CARGO_MANIFEST_DIR").unwrap());
    let folder = match std::env::var("WHY_ARCHIVE") {
        Ok(folder) => PathBuf::from(folder),
        Err(_) => here.join("../../target/staticlib"),
    };
    let archive = folder.join("libc_interface.a");
    println!("cargo:rerun-if-env-changed=WHY_ARCHIVE");
    println!("cargo:rerun-if-changed={}", archive.display());
    println!("cargo:rustc-link-search=native={}", folder.display());
    println!("cargo:rustc-link-lib=static=c_interface");
}
