//! Tells the linker where the static libraries under test lie.
//!
//! With FRONTEND_LIB_DIR unset nothing is looked for: the pure modules and
//! their tests do without the archives, and `src/library.rs` then refuses to
//! compile, with a message that names the variable.

use std::path::Path;

const FOLDER_VARIABLE: &str = "FRONTEND_LIB_DIR";
const ARCHIVES: [&str; 2] = ["libfrontend.a", "liblisting_exports.a"];

fn main() {
    println!("cargo:rerun-if-changed=build.rs");
    println!("cargo:rerun-if-env-changed={FOLDER_VARIABLE}");
    if let Some(folder) = std::env::var_os(FOLDER_VARIABLE) {
        for archive in ARCHIVES {
            link_from(Path::new(&folder), archive);
        }
    }
}

fn link_from(folder: &Path, archive: &str) {
    let path = folder.join(archive).canonicalize().unwrap_or_else(|error| {
        panic!(
            "{FOLDER_VARIABLE} is {}, but no {archive} can be read there: {error}",
            folder.display()
        )
    });
    let folder = path.parent().expect("a file lies in a folder");
    println!("cargo:rerun-if-changed={}", path.display());
    println!("cargo:rustc-link-search=native={}", folder.display());
}
