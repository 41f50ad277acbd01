//! Finds the archives of the proved code, `libedge.a` and, with the feature `desk`, `libdesk_edge.a`, and has them linked.
use std::path::{Path, PathBuf};

/// Ends with what to do where the archive isn't there; `named` says that LENTILPOT_LIB named the folder.
fn require(folder: &Path, name: &str, named: bool) {
    let archive = folder.join(format!("lib{name}.a"));
    println!("cargo:rerun-if-changed={}", archive.display());
    if archive.is_file() {
        return;
    }
    eprintln!("lentilpot: the proved library's archive is not there: {}", archive.display());
    if named {
        eprintln!("lentilpot: LENTILPOT_LIB has to name the folder that holds lib{name}.a.");
    } else {
        eprintln!("lentilpot: make it, with the Rattle kit's 'rt' on the PATH, at the root of the repository:");
        eprintln!("lentilpot:     sh scripts/nativelib {name}");
        eprintln!("lentilpot: or let LENTILPOT_LIB name a folder that holds lib{name}.a.");
    }
    std::process::exit(1);
}

fn main() {
    println!("cargo:rerun-if-env-changed=LENTILPOT_LIB");
    let root = PathBuf::from(std::env::var_os("CARGO_MANIFEST_DIR").expect("cargo sets it")).join("../..");
    let named = std::env::var_os("LENTILPOT_LIB").filter(|name| !name.is_empty()).map(PathBuf::from);
    let folder = named.clone().unwrap_or_else(|| root.join("target/native"));
    // The linker runs elsewhere.
    let folder = folder.canonicalize().unwrap_or(folder);
    println!("cargo:rustc-link-search=native={}", folder.display());
    let mut archives = vec!["edge"];
    if std::env::var_os("CARGO_FEATURE_DESK").is_some() {
        archives.push("desk_edge");
    }
    for name in archives {
        require(&folder, name, named.is_some());
        println!("cargo:rustc-link-lib=static={name}");
    }
}
