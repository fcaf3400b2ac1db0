//! Links the checker's static library.
//! CHECKER_LIB_DIR is the folder that holds libchecker_c.a; a relative path counts from this package.
//! CHECKER_LIBS names further libraries that it needs, with blanks between them; none by default.

use std::env;
use std::path::PathBuf;

const DEFAULT_FOLDER: &str = "../crates/checker_c/out";

fn main() {
    let package = PathBuf::from(env::var_os("CARGO_MANIFEST_DIR").expect("set by cargo"));
    let folder = env::var_os("CHECKER_LIB_DIR").unwrap_or_else(|| DEFAULT_FOLDER.into());
    let folder = package.join(folder);
    println!("cargo:rerun-if-env-changed=CHECKER_LIB_DIR");
    println!("cargo:rerun-if-env-changed=CHECKER_LIBS");
    println!("cargo:rerun-if-changed={}", folder.join("libchecker_c.a").display());
    println!("cargo:rustc-link-search=native={}", folder.display());
    println!("cargo:rustc-link-lib=static=checker_c");
    for library in env::var("CHECKER_LIBS").unwrap_or_default().split_whitespace() {
        println!("cargo:rustc-link-lib={library}");
    }
}
