//! Finds the static library that `tools/build staticlib capi` builds: in `../target/staticlib`, or in the folder that
//! `LESKWYN_LIB_DIR` names.

use std::env;
use std::path::PathBuf;
use std::process::exit;

const FOLDER: &str = "LESKWYN_LIB_DIR";
const LIBRARY: &str = "libcapi.a";

fn main() {
    println!("cargo:rerun-if-env-changed={FOLDER}");
    let package = PathBuf::from(env::var_os("CARGO_MANIFEST_DIR").expect("cargo sets CARGO_MANIFEST_DIR"));
    let folder = match env::var_os(FOLDER) {
        Some(named) => PathBuf::from(named),
        None => package.join("../target/staticlib"),
    };
    let library = folder.join(LIBRARY);
    println!("cargo:rerun-if-changed={}", library.display());
    if !library.is_file() {
        eprintln!("{} is missing.", library.display());
        eprintln!("Run `tools/build staticlib capi` in the root of the repository, which builds");
        eprintln!("target/staticlib/{LIBRARY},");
        eprintln!("or set {FOLDER} to the folder that holds {LIBRARY}.");
        exit(1);
    }
    let folder = folder.canonicalize().unwrap_or(folder);
    println!("cargo:rustc-link-search=native={}", folder.display());
    println!("cargo:rustc-link-lib=static=capi");
}
