//! Links the driver of the leaves with the static library of the Rattle crate `leaves`.

use std::env;

fn main() {
    let root = env::var("CARGO_MANIFEST_DIR").unwrap();
    let made = format!("{root}/../crates/leaves/out/libleaves.a");
    let lib = env::var("LEAVES_LIB").unwrap_or(made);
    println!("cargo:rustc-link-arg-bin=compare={lib}");
    println!("cargo:rerun-if-changed={lib}");
    println!("cargo:rerun-if-env-changed=LEAVES_LIB");
}
