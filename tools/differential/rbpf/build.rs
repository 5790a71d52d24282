//! Writes the list of modules that are the given files, by path and unchanged.
//! The folder is RBPF_SRC, solana_rbpf 0.8.5's src/ (taken from the folder of the
//! comparison if relative). It must be set: the sources are not in this repository.
use std::{env, fs, path::PathBuf};

fn main() {
    println!("cargo:rerun-if-env-changed=RBPF_SRC");
    println!("cargo:rerun-if-changed=build.rs");
    let project = PathBuf::from(env::var_os("CARGO_MANIFEST_DIR").unwrap())
        .parent()
        .unwrap()
        .to_path_buf();
    let wanted = env::var_os("RBPF_SRC").expect("RBPF_SRC is not set: solana_rbpf 0.8.5's src/");
    let folder = project
        .join(PathBuf::from(wanted))
        .canonicalize()
        .expect("RBPF_SRC does not name a folder");
    let out_dir = PathBuf::from(env::var_os("OUT_DIR").unwrap());
    let mut text = String::new();
    for (module, file) in [
        ("aligned_memory", "aligned_memory.rs"),
        ("ebpf", "ebpf.rs"),
        ("elf", "elf.rs"),
        ("elf_parser", "elf_parser/mod.rs"),
        ("program", "program.rs"),
        ("vm", "vm.rs"),
    ] {
        let mut path = folder.join(file);
        assert!(path.is_file(), "missing {}", path.display());
        // The given aligned_memory.rs ends in an attribute whose item (the test
        // module) was cut off, so an empty module is put behind a copy of it.
        // The given text itself stays as it is.
        if module == "aligned_memory" {
            let given = fs::read_to_string(&path).unwrap();
            path = out_dir.join("aligned_memory.rs");
            fs::write(&path, given + "\nmod tests_were_cut_off {}\n").unwrap();
        }
        text += &format!(
            "#[path = {:?}]\npub mod {module};\n",
            path.display().to_string()
        );
    }
    println!("cargo:rerun-if-changed={}", folder.display());
    fs::write(out_dir.join("given.rs"), text).unwrap();
}
