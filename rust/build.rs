//! Links libjugyvaros.a, which tools/library makes. JUGYVAROS_LIB names another folder that holds it.
use std::path::PathBuf;

fn main() {
    println!("cargo:rerun-if-env-changed=JUGYVAROS_LIB");
    let folder = match std::env::var_os("JUGYVAROS_LIB") {
        Some(folder) => PathBuf::from(folder),
        None => PathBuf::from(env!("CARGO_MANIFEST_DIR")).join("../crates/jugyvaros/out"),
    };
    println!("cargo:rerun-if-changed={}", folder.join("libjugyvaros.a").display());
    println!("cargo:rustc-link-search=native={}", folder.display());
    println!("cargo:rustc-link-lib=static=jugyvaros");
}
