//! Links the proved library, target/staticlib/libexports.a of the repository
//! (`tools/staticlib.sh`), or the one in the folder that EXPORTS_LIB names.
use std::{env, path::PathBuf};

fn main() {
    println!("cargo:rerun-if-env-changed=EXPORTS_LIB");
    println!("cargo:rerun-if-changed=build.rs");
    let project = PathBuf::from(env::var_os("CARGO_MANIFEST_DIR").unwrap());
    let folder = project.join(
        env::var_os("EXPORTS_LIB")
            .map(PathBuf::from)
            .unwrap_or_else(|| "../target/staticlib".into()),
    );
    let archive = folder.join("libexports.a");
    assert!(
        archive.is_file(),
        "no {}: run `tools/staticlib.sh` of the repository first",
        archive.display()
    );
    println!("cargo:rerun-if-changed={}", archive.display());
    println!("cargo:rustc-link-search=native={}", folder.display());
    println!("cargo:rustc-link-lib=static=exports");
}
