//! Links the proved library, target/staticlib/libexports.a of the repository
//! (`tools/staticlib.sh`), or the one in the folder that EXPORTS_LIB names.
//! EXPORTS_LIB=none builds the Rust's side alone: cases, expected answers, vectors.
//!
//! What the library has is read from its symbols, so that one source builds with each state of
//! it: cfg `port` says that there is a library, `load` that it has `sbpf_load`, `text_place` that
//! it has `sbpf_text_place`, `writers` that it has `sbpf_load_who_wrote`, `call_depth` that it has
//! `sbpf_load_call_depth`. A command that needs what is not there says so and stops.
use std::{env, fs, path::PathBuf};

fn main() {
    println!("cargo:rerun-if-env-changed=EXPORTS_LIB");
    println!("cargo:rerun-if-changed=build.rs");
    println!("cargo:rustc-check-cfg=cfg(port, load, text_place, writers, call_depth)");
    if env::var_os("EXPORTS_LIB").is_some_and(|folder| folder == "none") {
        return;
    }
    let project = PathBuf::from(env::var_os("CARGO_MANIFEST_DIR").unwrap());
    let folder = project.join(
        env::var_os("EXPORTS_LIB")
            .map(PathBuf::from)
            .unwrap_or_else(|| "../../target/staticlib".into()),
    );
    let archive = folder.join("libexports.a");
    assert!(
        archive.is_file(),
        "no {}: run `tools/staticlib.sh` of the repository first, or set EXPORTS_LIB=none",
        archive.display()
    );
    println!("cargo:rerun-if-changed={}", archive.display());
    println!("cargo:rustc-link-search=native={}", folder.display());
    println!("cargo:rustc-link-lib=static=exports");
    println!("cargo:rustc-cfg=port");
    let bytes = fs::read(&archive).expect("a library that can be read");
    for (symbol, cfg) in [
        ("sbpf_load", "load"),
        ("sbpf_text_place", "text_place"),
        ("sbpf_load_who_wrote", "writers"),
        ("sbpf_load_call_depth", "call_depth"),
    ] {
        // the whole name, as symbol tables hold it: with a zero byte behind, and nothing of a
        // longer name before
        let name = format!("{symbol}\0");
        let within = |b: &u8| b.is_ascii_alphanumeric() || *b == b'_';
        let whole = |at: usize| at == 0 || !within(&bytes[at - 1]);
        let found = bytes
            .windows(name.len())
            .enumerate()
            .any(|(at, w)| w == name.as_bytes() && whole(at));
        if found {
            println!("cargo:rustc-cfg={cfg}");
        }
    }
}
