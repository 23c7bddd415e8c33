//! Links the archive of the core, libplugin.a, which bindings/build builds in
//! the repository's root, or the one in the folder that HOLLGRIMSA_LIB names.

use std::env;
use std::path::{Path, PathBuf};
use std::process::exit;

const LIBRARY: &str = "libplugin.a";

fn main() {
    let manifest = env::var_os("CARGO_MANIFEST_DIR").expect("cargo names the manifest's folder");
    let built = Path::new(&manifest).join("../../target/staticlib");
    let folder = env::var_os("HOLLGRIMSA_LIB").map_or(built, PathBuf::from);
    let library = folder.join(LIBRARY);
    println!("cargo:rerun-if-env-changed=HOLLGRIMSA_LIB");
    println!("cargo:rerun-if-changed={}", library.display());
    if !library.is_file() {
        eprintln!("{LIBRARY} is not in {}.", folder.display());
        eprintln!("Run bindings/build in the repository's root, which proves the core and builds it,");
        eprintln!("or set HOLLGRIMSA_LIB to the folder that has it.");
        exit(1);
    }
    println!("cargo:rustc-link-search=native={}", folder.display());
    println!("cargo:rustc-link-lib=static=plugin");
}
