//! Links the proved library that `oracle/library` writes to target/staticlib,
//! or the one in the folder that FFI_FOLDER names. `oracle/run` also sets
//! FFI_SUM, its checksum, so that another library is linked anew, whatever the
//! times of its file say.
use std::{env, path::Path};

fn main() {
    println!("cargo::rerun-if-changed=build.rs");
    println!("cargo::rerun-if-env-changed=FFI_FOLDER");
    println!("cargo::rerun-if-env-changed=FFI_SUM");
    let built = || format!("{}/../../target/staticlib", env!("CARGO_MANIFEST_DIR"));
    let folder = env::var("FFI_FOLDER").unwrap_or_else(|_| built());
    let library = format!("{folder}/libffi.a");
    println!("cargo::rerun-if-changed={library}");
    if Path::new(&library).is_file() {
        println!("cargo::rustc-link-search=native={folder}");
        println!("cargo::rustc-link-lib=static=ffi");
    } else {
        println!("cargo::error={library} is not there: `oracle/library` writes it");
    }
}
