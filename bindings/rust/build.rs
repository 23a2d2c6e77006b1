//! Finds the library: in the folder that `ROPE_SEARCH_LIB_DIR` names, by `pkg-config`, or in the folders
//! around this package. The static archive is linked if there is one; `ROPE_SEARCH_DYNAMIC=1` asks for
//! the shared library.
use std::env;
use std::path::{Path, PathBuf};
use std::process::Command;

const ARCHIVE: &str = "librope_search.a";
const SHARED: &str = "librope_search.so";

fn main() {
    for name in [
        "ROPE_SEARCH_LIB_DIR",
        "ROPE_SEARCH_DYNAMIC",
        "PKG_CONFIG",
        "PKG_CONFIG_PATH",
    ] {
        println!("cargo:rerun-if-env-changed={name}");
    }
    // Documentation is built without the library.
    if env::var_os("DOCS_RS").is_some() {
        return;
    }
    let wants_shared = env::var_os("ROPE_SEARCH_DYNAMIC").map_or(false, |value| value != "0");
    if let Some(folder) = env::var_os("ROPE_SEARCH_LIB_DIR") {
        let folder = PathBuf::from(folder);
        if !link(&folder, wants_shared) {
            panic!(
                "ROPE_SEARCH_LIB_DIR: there is no {} in {}",
                wanted(wants_shared),
                folder.display()
            );
        }
        return;
    }
    if let Some(folders) = folders_of_pkg_config() {
        if !folders.iter().any(|folder| link(folder, wants_shared)) {
            // It is in a folder that the linker searches by itself.
            println!("cargo:rustc-link-lib=rope_search");
        }
        return;
    }
    let here = PathBuf::from(env::var_os("CARGO_MANIFEST_DIR").expect("cargo sets it"));
    // bin/ of the repository, lib/ of a release, and lib/ of an installation.
    let around = ["../../bin", "../../lib", "../../../lib"].map(|folder| here.join(folder));
    if !around.iter().any(|folder| link(folder, wants_shared)) {
        panic!(
            "{} was not found: name its folder by ROPE_SEARCH_LIB_DIR, or put the folder of \
             rope_search.pc on PKG_CONFIG_PATH",
            wanted(wants_shared)
        );
    }
}

fn wanted(wants_shared: bool) -> &'static str {
    if wants_shared {
        SHARED
    } else {
        "librope_search.a or librope_search.so"
    }
}

/// Links the library of a folder, and returns whether there is one.
fn link(folder: &Path, wants_shared: bool) -> bool {
    let (archive, shared) = (folder.join(ARCHIVE), folder.join(SHARED));
    let (file, kind) = if !wants_shared && archive.is_file() {
        (archive, "static")
    } else if shared.is_file() {
        (shared, "dylib")
    } else {
        return false;
    };
    let folder = folder
        .canonicalize()
        .unwrap_or_else(|_| folder.to_path_buf());
    println!("cargo:rerun-if-changed={}", file.display());
    println!("cargo:rustc-link-search=native={}", folder.display());
    println!("cargo:rustc-link-lib={kind}=rope_search");
    // For the build scripts of packages that depend on this one: DEP_ROPE_SEARCH_LIB_DIR.
    println!("cargo:lib_dir={}", folder.display());
    if kind == "dylib" {
        // For this package's own tests; a program that uses it sets its own path.
        println!("cargo:rustc-link-arg=-Wl,-rpath,{}", folder.display());
    }
    true
}

/// The folders that pkg-config names, which are none for a library of the system; nothing if
/// pkg-config or its file is missing.
fn folders_of_pkg_config() -> Option<Vec<PathBuf>> {
    let program = env::var_os("PKG_CONFIG").unwrap_or_else(|| "pkg-config".into());
    let output = Command::new(program)
        .args(["--libs-only-L", "rope_search"])
        .output()
        .ok()?;
    if !output.status.success() {
        return None;
    }
    let flags = String::from_utf8(output.stdout).ok()?;
    Some(
        flags
            .split_whitespace()
            .filter_map(|flag| flag.strip_prefix("-L"))
            .map(PathBuf::from)
            .collect(),
    )
}
