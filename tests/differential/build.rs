//! Where libmelivanoup.a stands: the folder in MELIVANOUP_LIB, else where `rt lib` writes it.
use std::{env, path::PathBuf};

fn main() {
    let here = PathBuf::from(env::var_os("CARGO_MANIFEST_DIR").unwrap());
    let folder = env::var_os("MELIVANOUP_LIB").map_or_else(|| here.join("../../crates/melivanoup/out"), PathBuf::from);
    println!("cargo:rerun-if-env-changed=MELIVANOUP_LIB");
    println!("cargo:rerun-if-changed={}", folder.join("libmelivanoup.a").display());
    println!("cargo:rustc-link-search=native={}", folder.display());
    println!("cargo:rustc-link-lib=static=melivanoup");
}
