//! Finds the library: in ELFSEE_LIBRARY_DIR; otherwise in ../out, where the repository builds it; otherwise where
//! pkg-config says that it is installed. It is linked statically if the directory has libelfsee.a.

use std::env;
use std::path::{Path, PathBuf};
use std::process::Command;

const HELP: &str =
    "the library elfsee is not found: ELFSEE_LIBRARY_DIR may name its folder; library/build in elfsee's \
                    repository builds it, and `make install-library` installs it, for pkg-config to find";

/// The directory that pkg-config prints, if there is one.
fn installed() -> Option<PathBuf> {
    let tool = env::var("PKG_CONFIG").unwrap_or_else(|_| "pkg-config".to_string());
    let told = Command::new(tool).args(["--variable=libdir", "elfsee"]).output().ok()?;
    let folder = String::from_utf8(told.stdout).ok()?;
    (told.status.success() && !folder.trim().is_empty()).then(|| PathBuf::from(folder.trim()))
}

fn main() {
    let here = env::var("CARGO_MANIFEST_DIR").expect("cargo tells where the crate is");
    let built = Path::new(&here).join("../out");
    let folder = match env::var_os("ELFSEE_LIBRARY_DIR") {
        Some(folder) => PathBuf::from(folder),
        None if built.join("libelfsee.a").exists() => built,
        None => installed().expect(HELP),
    };
    let kind = if folder.join("libelfsee.a").exists() { "static" } else { "dylib" };
    for name in ["ELFSEE_LIBRARY_DIR", "PKG_CONFIG", "PKG_CONFIG_PATH"] {
        println!("cargo:rerun-if-env-changed={name}");
    }
    println!("cargo:rerun-if-changed={}", folder.join("libelfsee.a").display());
    println!("cargo:rustc-link-search=native={}", folder.display());
    println!("cargo:rustc-link-lib={kind}=elfsee");
}
