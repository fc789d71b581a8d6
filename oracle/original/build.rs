//! Finds the original and writes the root module that names its files where
//! they stand. No file of it is copied. `HACHISTEP_SRC` names the folder, by
//! default `../shared/docs/src` beside the project: either the repository's
//! root or its `crates/hs-core/src`.
use std::{
    env, fs,
    path::{Path, PathBuf},
};

const FILES: [&str; 6] = [
    "time.rs",
    "signals.rs",
    "state.rs",
    "devices/nt7508.rs",
    "devices/nt7508/scan.rs",
    "devices/nt7508/voltage.rs",
];

fn main() {
    println!("cargo::rerun-if-env-changed=HACHISTEP_SRC");
    println!("cargo::rerun-if-changed=build.rs");
    let asked = folder();
    println!("cargo::rerun-if-changed={}", asked.display());
    match source(&asked) {
        Some(source) => write_root(&source),
        None => println!(
            "cargo::error=The original is not in {}: set HACHISTEP_SRC to the folder that holds lumirth/hachistep, without which the oracle cannot be built.",
            asked.display()
        ),
    }
}

/// The folder that was asked for.
fn folder() -> PathBuf {
    match env::var_os("HACHISTEP_SRC") {
        Some(folder) => PathBuf::from(folder),
        None => Path::new(env!("CARGO_MANIFEST_DIR")).join("../../../shared/docs/src"),
    }
}

/// The folder of time.rs, if all six files are there.
fn source(asked: &Path) -> Option<PathBuf> {
    [asked.join("crates/hs-core/src"), asked.to_path_buf()]
        .into_iter()
        .find(|folder| FILES.iter().all(|file| folder.join(file).is_file()))
        .and_then(|folder| folder.canonicalize().ok())
}

/// A module inside braces with a path of its own makes the nested `mod scan;`
/// of nt7508.rs lead to devices/nt7508/scan.rs, as in the original's crate.
fn write_root(source: &Path) {
    for file in FILES {
        println!("cargo::rerun-if-changed={}", source.join(file).display());
    }
    let at = |file: &str| format!("{:?}", source.join(file).display().to_string());
    let root = format!(
        "#[path = {}] #[allow(warnings)] pub mod time;\n\
         #[path = {}] #[allow(warnings)] pub mod signals;\n\
         #[path = {}] #[allow(warnings)] mod state;\n\
         #[path = {}] #[allow(warnings)] pub mod devices {{ pub mod nt7508; }}\n",
        at("time.rs"),
        at("signals.rs"),
        at("state.rs"),
        at("devices"),
    );
    let out = PathBuf::from(env::var_os("OUT_DIR").expect("cargo sets OUT_DIR"));
    fs::write(out.join("root.rs"), root).expect("OUT_DIR can be written");
}
