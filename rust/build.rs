//! Links the static library: `../target/staticlib/libplanner_c.a`, or the file that the environment
//! variable PLANNER_LIBRARY names.

use std::env;
use std::path::{Path, PathBuf};
use std::process::exit;

const NAME: &str = "PLANNER_LIBRARY";
const DEFAULT: &str = "../target/staticlib/libplanner_c.a";

fn main() {
    println!("cargo:rerun-if-changed=build.rs");
    println!("cargo:rerun-if-env-changed={NAME}");
    let given = env::var_os(NAME).filter(|path| !path.is_empty());
    let here = PathBuf::from(env::var_os("CARGO_MANIFEST_DIR").unwrap_or_default());
    let path = here.join(given.as_deref().unwrap_or(DEFAULT.as_ref()));
    let Ok(full) = path.canonicalize() else {
        println!("cargo:rerun-if-changed={}", path.display());
        missing(&path, given.is_some());
    };
    println!("cargo:rerun-if-changed={}", full.display());
    link(&full);
}

/// The linker takes a folder and a name, so the file must be called lib<name>.a.
fn link(library: &Path) {
    let stem = library.file_stem().and_then(|stem| stem.to_str()).unwrap_or_default();
    let is_archive = library.extension().is_some_and(|extension| extension == "a");
    let (Some(name), Some(folder), true) = (stem.strip_prefix("lib"), library.parent(), is_archive)
    else {
        eprintln!("planner: {} is not named lib<name>.a", library.display());
        exit(1);
    };
    println!("cargo:rustc-link-search=native={}", folder.display());
    println!("cargo:rustc-link-lib=static={name}");
}

fn missing(path: &Path, given: bool) -> ! {
    eprintln!("planner: the static library is missing: {}", path.display());
    if given {
        eprintln!("{NAME} names it; a relative path counts from the folder of this crate.");
    }
    eprintln!("To make it, run in the repository's root (it needs the Rattle toolchain):");
    eprintln!("    tools/build-library");
    eprintln!("which writes target/staticlib/libplanner_c.a. To use another file, set {NAME}.");
    exit(1);
}
