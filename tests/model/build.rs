//! Tells the linker where the engine's static libraries lie.

use std::env;
use std::path::{Path, PathBuf};

/// Each feature that links a library, as the build script sees it.
const LIBRARIES: [(&str, &str); 2] = [
    ("CARGO_FEATURE_ENGINE", "libexports.a"),
    ("CARGO_FEATURE_REPLAY", "libscript.a"),
];

fn main() {
    println!("cargo:rerun-if-changed=build.rs");
    println!("cargo:rerun-if-env-changed=ENGINE_LIBRARY");
    let folder = library_folder();
    for (feature, library) in LIBRARIES {
        if env::var_os(feature).is_some() {
            link(&folder, library);
        }
    }
}

fn link(folder: &Path, library: &str) {
    println!("cargo:rustc-link-search=native={}", folder.display());
    println!("cargo:rerun-if-changed={}", folder.join(library).display());
}

fn library_folder() -> PathBuf {
    if let Some(folder) = env::var_os("ENGINE_LIBRARY") {
        return PathBuf::from(folder);
    }
    let manifest = env::var_os("CARGO_MANIFEST_DIR").unwrap_or_default();
    PathBuf::from(manifest).join("../../target/staticlib")
}
