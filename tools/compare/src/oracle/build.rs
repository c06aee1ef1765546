//! Brings revc's files into the build: each is copied unchanged from $REVC/src, the files that it needs and
//! that are not part of this comparison are laid beside the copies from shims/, and one generated file
//! declares them all as modules of the crate root, where their `crate::` and `pub(crate)` hold.
//!
//! Four packages are built so. `oracle` has the files exactly as they lie in the folder. In those that end in
//! `_tr5` one constant of the copy of def.rs is changed, MAX_TR_LOG2 from 6 to 5. In those called
//! `oracle_visits..` the copy of tracer.rs is replaced by shims/tracer.rs.
use std::path::{Path, PathBuf};
use std::{env, fs};

const COPIED: [&str; 11] = [
    "api/mod.rs",
    "def.rs",
    "df.rs",
    "ipred.rs",
    "picman.rs",
    "plane.rs",
    "recon.rs",
    "region.rs",
    "tbl.rs",
    "tracer.rs",
    "util.rs",
];
const SUPPLIED: [(&str, &str); 3] = [("frame.rs", "api/frame.rs"), ("dec.rs", "dec.rs"), ("enc.rs", "enc.rs")];
const LIMIT_6: &str = "pub(crate) const MAX_TR_LOG2: usize = 6;";
const LIMIT_5: &str = "pub(crate) const MAX_TR_LOG2: usize = 5;";

fn main() {
    println!("cargo:rerun-if-env-changed=REVC");
    println!("cargo:rustc-check-cfg=cfg(visits)");
    let revc = PathBuf::from(env::var("REVC").expect("REVC: the folder that holds revc's src/"));
    let shims = Path::new(&env::var("CARGO_MANIFEST_DIR").unwrap()).join("../shims").canonicalize().unwrap();
    let out = PathBuf::from(env::var("OUT_DIR").unwrap());
    let copies = out.join("src");
    fs::create_dir_all(copies.join("api")).unwrap();
    for name in COPIED {
        lay(&revc.join("src").join(name), &copies.join(name));
    }
    for (from, to) in SUPPLIED {
        lay(&shims.join(from), &copies.join(to));
    }
    let package = env::var("CARGO_PKG_NAME").unwrap();
    if package.ends_with("_tr5") {
        change_limit(&copies.join("def.rs"));
    }
    if package.starts_with("oracle_visits") {
        println!("cargo:rustc-cfg=visits");
        lay(&shims.join("tracer.rs"), &copies.join("tracer.rs"));
    }
    fs::write(out.join("revc.rs"), root(&shims.join("lazy_static.rs"), &copies)).unwrap();
}

/// The declarations of all modules.
fn root(lazy_static: &Path, copies: &Path) -> String {
    println!("cargo:rerun-if-changed={}", lazy_static.display());
    let mut root = format!("include!({lazy_static:?});\n");
    for name in COPIED.iter().chain(&["dec.rs", "enc.rs"]) {
        let module = name.trim_end_matches("/mod.rs").trim_end_matches(".rs");
        root += &format!("#[allow(warnings)]\n#[path = {:?}]\npub(crate) mod {};\n", copies.join(name), module);
    }
    root
}

/// Copies one file, byte for byte.
fn lay(from: &Path, to: &Path) {
    println!("cargo:rerun-if-changed={}", from.display());
    let bytes = fs::read(from).unwrap_or_else(|e| panic!("{}: {}", from.display(), e));
    fs::write(to, bytes).unwrap();
}

/// The one change that limit 5 needs; the line must be there exactly once.
fn change_limit(def: &Path) {
    let text = fs::read_to_string(def).unwrap();
    assert_eq!(text.matches(LIMIT_6).count(), 1, "MAX_TR_LOG2 stands in def.rs otherwise than expected");
    fs::write(def, text.replace(LIMIT_6, LIMIT_5)).unwrap();
}
