//! With the feature `before`: links an earlier archive of the library twice beside the present one.
//! Its calls are renamed, `planner_sweep` to `before_planner_sweep` and `control_planner_sweep` and
//! so on; its other symbols become local. The environment variable PLANNER_BEFORE names the archive.
//! Needs objcopy.

use std::env;
use std::path::{Path, PathBuf};
use std::process::{exit, Command};

const NAME: &str = "PLANNER_BEFORE";
/// The calls that `src/before.rs` declares.
const CALLS: [&str; 3] = ["planner_sweep", "planner_guided", "planner_space_needed"];
const COPIES: [&str; 2] = ["before", "control"];

fn main() {
    println!("cargo:rerun-if-changed=build.rs");
    println!("cargo:rerun-if-env-changed={NAME}");
    if env::var_os("CARGO_FEATURE_BEFORE").is_none() {
        return;
    }
    let Some(archive) = env::var_os(NAME).filter(|path| !path.is_empty()).map(PathBuf::from) else {
        fail(&format!("the feature `before` needs {NAME}, the path of an archive of the library"));
    };
    println!("cargo:rerun-if-changed={}", archive.display());
    let folder = PathBuf::from(env::var_os("OUT_DIR").unwrap_or_default());
    println!("cargo:rustc-link-search=native={}", folder.display());
    for copy in COPIES {
        rename_calls(&archive, copy, &folder.join(format!("libplanner_{copy}.a")));
        println!("cargo:rustc-link-lib=static=planner_{copy}");
    }
}

/// Writes the archive with its calls renamed.
fn rename_calls(archive: &Path, copy: &str, renamed: &Path) {
    let mut objcopy = Command::new("objcopy");
    for call in CALLS {
        objcopy.arg(format!("--redefine-sym={call}={copy}_{call}"));
        objcopy.arg(format!("--keep-global-symbol={copy}_{call}"));
    }
    match objcopy.arg(archive).arg(renamed).status() {
        Ok(status) if status.success() => {}
        Ok(status) => fail(&format!("objcopy of {}: {status}", archive.display())),
        Err(error) => fail(&format!("cannot run objcopy (of GNU binutils): {error}")),
    }
}

fn fail(text: &str) -> ! {
    eprintln!("planner-bench: {text}");
    exit(1);
}
