//! Links the archive that VTIL_LIB names; without it, target/staticlib/libvtil.a of the repository (./run.sh builds it).

use std::path::{Path, PathBuf};
use std::process::exit;

fn archive() -> PathBuf {
    match std::env::var_os("VTIL_LIB") {
        Some(named) if !named.is_empty() => PathBuf::from(named),
        _ => Path::new(env!("CARGO_MANIFEST_DIR")).join("../../target/staticlib/libvtil.a"),
    }
}

fn main() {
    println!("cargo:rerun-if-env-changed=VTIL_LIB");
    let path = archive();
    let found = path.canonicalize().unwrap_or_else(|error| {
        eprintln!("{}: {error}: build it by ./run.sh, or name an archive by VTIL_LIB", path.display());
        exit(1)
    });
    let folder = found.parent().expect("a file lies in a folder");
    let name = found.file_name().expect("a file has a name").to_string_lossy();
    println!("cargo:rerun-if-changed={}", found.display());
    println!("cargo:rustc-link-search=native={}", folder.display());
    println!("cargo:rustc-link-lib=static:+verbatim={name}");
}
