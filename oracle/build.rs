//! Says where the given Rust lies.
//!
//! `#[path]` takes a literal only, so for each given file one line is written that names it by its
//! absolute path; src/lib.rs includes those lines. The files themselves are compiled where they lie.
//!
//! The folder is `GUSSETGLEN_RUST`, or `shared/docs/src` beside the repository. Where the variable is
//! not set and that folder is absent, the package still builds, without the cfg `given`.

use std::{env, fs, path::PathBuf};

/// Each given file, and the module that it is.
const FILES: [(&str, &str); 8] = [
    ("word", "crates/core/src/word.rs"),
    ("shift", "crates/core/src/constraint_system/shift.rs"),
    ("opcode", "crates/frontend/src/eval_form/opcode.rs"),
    ("builder", "crates/frontend/src/eval_form/builder.rs"),
    ("exec", "crates/frontend/src/eval_form/exec.rs"),
    ("batch", "crates/frontend/src/eval_form/batch.rs"),
    ("assertion", "crates/frontend/src/eval_form/assertion.rs"),
    (
        "scratch_alloc",
        "crates/frontend/src/pass/layout/scratch_alloc.rs",
    ),
];

fn main() {
    println!("cargo::rustc-check-cfg=cfg(given)");
    println!("cargo::rerun-if-env-changed=GUSSETGLEN_RUST");

    let named = env::var_os("GUSSETGLEN_RUST").map(PathBuf::from);
    let is_named = named.is_some();
    let package = PathBuf::from(env::var_os("CARGO_MANIFEST_DIR").expect("cargo sets it"));
    let folder = named.unwrap_or_else(|| package.join("../../shared/docs/src"));
    println!("cargo::rerun-if-changed={}", folder.display());
    if !is_named && !folder.exists() {
        println!(
            "cargo::warning=no given Rust at {}: the runs beside it are skipped",
            folder.display()
        );
        return;
    }

    let out = PathBuf::from(env::var_os("OUT_DIR").expect("cargo sets it"));
    for (module, file) in FILES {
        let path = folder.join(file).canonicalize().unwrap_or_else(|why| {
            panic!("{file} of the given Rust in {}: {why}", folder.display())
        });
        let path = path.display().to_string();
        println!("cargo::rerun-if-changed={path}");
        let line = format!("#[allow(dead_code, unused_imports)]\n#[path = {path:?}]\npub mod {module};\n");
        fs::write(out.join(format!("{module}.rs")), line).expect("OUT_DIR takes files");
    }
    println!("cargo::rustc-cfg=given");
}
