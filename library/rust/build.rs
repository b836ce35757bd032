//! Links the library that `library/make` made, or the one in the folder that `STREETSIM_LIB` names.
use std::env;
use std::path::PathBuf;

fn main() {
    let made = PathBuf::from(env::var("CARGO_MANIFEST_DIR").unwrap()).join("../out");
    let folder = env::var("STREETSIM_LIB").map_or(made, PathBuf::from);
    let folder = folder.canonicalize().expect("library/make makes the library; or name its folder in STREETSIM_LIB");
    println!("cargo:rustc-link-search=native={}", folder.display());
    println!("cargo:rustc-link-lib=static=streetsim");
    println!("cargo:rerun-if-env-changed=STREETSIM_LIB");
    println!("cargo:rerun-if-changed={}", folder.join("libstreetsim.a").display());
}
