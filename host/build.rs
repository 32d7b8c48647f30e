//! Links target/staticlib/libgussetglen.a, the proved library. The environment variable GUSSETGLEN_LIB_DIR names another
//! folder for it. Where the library is absent and `rt` is at hand, `.ci/staticlib` builds it.

use std::path::{Path, PathBuf};
use std::process::{exit, Command};
use std::{env, fs};

const ARCHIVE: &str = "libgussetglen.a";
const FOLDER: &str = "GUSSETGLEN_LIB_DIR";

fn main() {
    let package = PathBuf::from(env::var_os("CARGO_MANIFEST_DIR").expect("cargo names the package's folder"));
    let root = package.parent().expect("the package stands in the repository").to_path_buf();
    let named = env::var_os(FOLDER).map(PathBuf::from);
    let folder = named.clone().unwrap_or_else(|| root.join("target/staticlib"));
    let archive = folder.join(ARCHIVE);
    println!("cargo:rerun-if-env-changed={FOLDER}");
    println!("cargo:rerun-if-changed=build.rs");
    println!("cargo:rerun-if-changed={}", archive.display());

    if named.is_none() {
        let target = env::var("TARGET").unwrap_or_default();
        if !target.starts_with("x86_64-") || !target.contains("linux") {
            fail(&format!(
                "{ARCHIVE} holds code for x86-64 Linux, and this build is for {target}. Run cargo through .ci/cargo, \
                 which builds for x86-64 and runs under an emulator where that is needed."
            ));
        }
        if !archive.exists() {
            build(&root);
        }
    }
    if !archive.exists() {
        fail(&format!(
            "{} is absent. Run `.ci/staticlib` in the repository's root, which proves and writes it, or name \
             the folder that has it in the environment variable {FOLDER}.",
            archive.display()
        ));
    }
    // A folder named relative to the shell's would be looked for in the package's.
    let folder = fs::canonicalize(&folder).unwrap_or(folder);
    println!("cargo:rustc-link-search=native={}", folder.display());
    println!("cargo:rustc-link-lib=static=gussetglen");
}

/// Has `rt` prove and write the library. Without `rt` nothing happens: the message about an absent library follows.
fn build(root: &Path) {
    if Command::new("rt").arg("version").output().is_err() {
        return;
    }
    match Command::new(root.join(".ci/staticlib")).output() {
        Ok(done) if !done.status.success() => fail(&format!(
            "`.ci/staticlib` failed in {}:\n{}{}",
            root.display(),
            String::from_utf8_lossy(&done.stdout),
            String::from_utf8_lossy(&done.stderr)
        )),
        _ => {}
    }
}

fn fail(message: &str) -> ! {
    eprintln!("{message}");
    exit(1);
}
