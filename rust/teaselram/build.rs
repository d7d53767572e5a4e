//! Links the static library that `tools/build` writes at the top of the repository. Where TEASELRAM_EMULATED is set, and on any
//! processor but x86-64, for which its code is, links the calls that `tests/emulated/build` makes, which hand each to it in a
//! second process. Where TEASELRAM_NATIVE is set, links what `bench/native` makes for this machine's own processor, for timing
//! alone.
use std::{env, fs, path::PathBuf};

fn main() {
    let mut folder = "target/staticlib";
    let proved = written(folder, "libteaselram.a", "tools/build");
    println!("cargo:rerun-if-env-changed=TEASELRAM_EMULATED");
    println!("cargo:rerun-if-env-changed=TEASELRAM_NATIVE");
    let x86_64 = env::var("CARGO_CFG_TARGET_ARCH").unwrap() == "x86_64";
    if env::var_os("TEASELRAM_NATIVE").is_some() {
        folder = "target/native";
        written(folder, "libteaselram.a", "bench/native");
    } else if !x86_64 || env::var_os("TEASELRAM_EMULATED").is_some() {
        folder = "target/emulated";
        written(folder, "libteaselram.a", "tests/emulated/build");
        assert!(
            written(folder, "proved.a", "tests/emulated/build") == proved,
            "target/emulated has another library: run `tests/emulated/build` again"
        );
    }
    println!("cargo:rustc-link-search=native={}", path(folder).display());
    println!("cargo:rustc-link-lib=static=teaselram");
}

/// The archive that `by` writes in this folder.
fn written(folder: &str, name: &str, by: &str) -> Vec<u8> {
    let archive = path(folder).join(name);
    println!("cargo:rerun-if-changed={}", archive.display());
    fs::read(archive).unwrap_or_else(|_| panic!("{folder}/{name} is missing: run `{by}` first"))
}

/// A folder below the top of the repository.
fn path(folder: &str) -> PathBuf {
    let own = PathBuf::from(env::var("CARGO_MANIFEST_DIR").unwrap());
    own.join("../..").join(folder)
}
