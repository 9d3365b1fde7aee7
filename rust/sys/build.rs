//! Links the proved static library, libhuskelapse.a. It is looked for in the folder HUSKELAPSE_LIB; where that is not set, in lib beside
//! the Cargo.toml of the crate huskelapse, where a release has it; else in crates/huskelapse/out of the repository, where rt makes it.
//!
//! Where it cannot be linked this warns and does not stop: documentation and `cargo check` need no library. What needs it fails when it
//! is linked, and cargo shows the warning beside that.

use std::env;
use std::path::PathBuf;

const NAME: &str = "libhuskelapse.a";

fn main() {
    println!("cargo:rerun-if-changed=build.rs");
    println!("cargo:rerun-if-env-changed=HUSKELAPSE_LIB");
    let folders = folders();
    let found = folders.iter().find(|folder| folder.join(NAME).is_file());
    if let Some(why) = trouble(&folders, found.is_some()) {
        println!("cargo:warning={why}");
    }
    for folder in found.map_or(&folders[..], std::slice::from_ref) {
        println!("cargo:rerun-if-changed={}", folder.join(NAME).display());
        println!("cargo:rustc-link-search=native={}", folder.display());
    }
    println!("cargo:rustc-link-lib=static=huskelapse");
}

/// Where the library can be, the first place first.
fn folders() -> Vec<PathBuf> {
    if let Some(folder) = env::var_os("HUSKELAPSE_LIB").filter(|folder| !folder.is_empty()) {
        return vec![PathBuf::from(folder)];
    }
    let here = PathBuf::from(env::var_os("CARGO_MANIFEST_DIR").expect("cargo sets CARGO_MANIFEST_DIR"));
    let rust = here.parent().expect("this crate is a folder of the crate huskelapse");
    let root = rust.parent().expect("the crate huskelapse is a folder of the repository or of a release");
    vec![rust.join("lib"), root.join("crates/huskelapse/out")]
}

/// Why the library cannot be linked.
fn trouble(folders: &[PathBuf], found: bool) -> Option<String> {
    if env::var("CARGO_CFG_TARGET_ARCH").as_deref() != Ok("x86_64") {
        return Some(format!("{NAME} is for x86-64 only: nothing that calls it can be linked for this target"));
    }
    let looked: Vec<String> = folders.iter().map(|folder| folder.display().to_string()).collect();
    (!found).then(|| {
        format!(
            "{NAME} is missing in {}, nothing that calls it can be linked: a release has it in rust/lib; in the repository's crates/huskelapse \
             `rt lib` makes it (rt is the Rattle kit); or set HUSKELAPSE_LIB to the folder that holds it",
            looked.join(" and ")
        )
    })
}
