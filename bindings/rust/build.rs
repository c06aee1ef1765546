//! Tells the linker where the archive libdecoder_c.a lies: in the folder that LOMSAKEUN_LIB_DIR names, or else where `tools/archive`
//! writes it in this repository.
use std::env;
use std::path::{Path, PathBuf};

fn main() {
    println!("cargo:rerun-if-env-changed=LOMSAKEUN_LIB_DIR");
    let here = PathBuf::from(env::var("CARGO_MANIFEST_DIR").unwrap());
    let folder = env::var("LOMSAKEUN_LIB_DIR").map_or(here.join("../../target/staticlib"), PathBuf::from);
    let archive = folder.join("libdecoder_c.a");
    assert!(
        Path::new(&archive).is_file(),
        "no {}: run `tools/archive`, or name the folder of libdecoder_c.a in LOMSAKEUN_LIB_DIR",
        archive.display()
    );
    println!("cargo:rerun-if-changed={}", archive.display());
    println!("cargo:rustc-link-search=native={}", folder.display());
    println!("cargo:rustc-link-lib=static=decoder_c");
}
