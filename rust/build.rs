//! Finds the archive that `make lib` writes, `target/lib/libullarvesp.a`, and has it linked.
//! The variable ULLARVESP_LIB names another one: the archive itself, or the folder that holds libullarvesp.a.

use std::path::{Path, PathBuf};
use std::{env, fs, process};

const NAME: &str = "libullarvesp.a";

fn stop(message: String) -> ! {
    eprintln!("ullarvesp: {message}");
    process::exit(1);
}

fn archive() -> PathBuf {
    println!("cargo:rerun-if-env-changed=ULLARVESP_LIB");
    if let Some(given) = env::var_os("ULLARVESP_LIB") {
        let given = PathBuf::from(given);
        return if given.is_dir() { given.join(NAME) } else { given };
    }
    let processor = env::var("CARGO_CFG_TARGET_ARCH").unwrap_or_default();
    if processor != "x86_64" {
        stop(format!(
            "the library that `make lib` writes is for x86-64, and this build is for {processor}. \
             Set ULLARVESP_LIB to an archive for {processor}, if you have one."
        ));
    }
    let here = env::var_os("CARGO_MANIFEST_DIR").expect("cargo sets it");
    Path::new(&here).join("../target/lib").join(NAME)
}

fn main() {
    let archive = archive();
    println!("cargo:rerun-if-changed={}", archive.display());
    if !archive.is_file() {
        stop(format!(
            "there is no archive at {}. Run `make lib` in the folder above this crate, or set ULLARVESP_LIB to the archive.",
            archive.display()
        ));
    }
    let out = PathBuf::from(env::var_os("OUT_DIR").expect("cargo sets it"));
    if let Err(error) = fs::copy(&archive, out.join(NAME)) {
        stop(format!("{} can't be copied: {error}", archive.display()));
    }
    println!("cargo:rustc-link-search=native={}", out.display());
    println!("cargo:rustc-link-lib=static=ullarvesp");
}
