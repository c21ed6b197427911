//! Links the library under test when the environment variable PIRKVEZO_LIB
//! names the folder that holds `libpirkvezo.a`, and then sets the flag `linked`.
//! Without it the package builds with the reference alone. A relative folder is
//! taken from the workspace's own folder.

use std::env;
use std::path::{Path, PathBuf};

const LIBRARY: &str = "libpirkvezo.a";

fn main() {
    println!("cargo:rustc-check-cfg=cfg(linked)");
    println!("cargo:rerun-if-changed=build.rs");
    println!("cargo:rerun-if-env-changed=PIRKVEZO_LIB");
    let Some(folder) = env::var_os("PIRKVEZO_LIB").filter(|folder| !folder.is_empty()) else {
        return;
    };
    let folder = workspace().join(PathBuf::from(folder));
    let library = folder.join(LIBRARY);
    assert!(library.is_file(), "there is no {}", library.display());
    println!("cargo:rerun-if-changed={}", library.display());
    println!("cargo:rustc-link-search=native={}", folder.display());
    println!("cargo:rustc-link-lib=static=pirkvezo");
    println!("cargo:rustc-cfg=linked");
}

fn workspace() -> PathBuf {
    let package = env::var_os("CARGO_MANIFEST_DIR").expect("cargo names the package's folder");
    let parent = Path::new(&package).parent();
    parent.expect("a package of a workspace").to_path_buf()
}
