//! Links an archive of the verified library, for a build script. It is taken from the
//! folder that CLOCKIVY_LIB_DIR names, or else from where `tools/staticlib` writes it.

use std::env;
use std::path::{Path, PathBuf};

/// Links the first of these archives that is there, each named without lib and .a; the
/// first is the name that `rt` gives it. `top` leads from the package to the top of the
/// repository.
pub fn archive(names: &[&str], top: &str) {
    println!("cargo:rerun-if-env-changed=CLOCKIVY_LIB_DIR");

    let folder: PathBuf = match env::var_os("CLOCKIVY_LIB_DIR") {
        Some(folder) => folder.into(),
        None => {
            let package = env::var_os("CARGO_MANIFEST_DIR").expect("cargo sets it");
            Path::new(&package).join(top).join("target/staticlib")
        }
    };
    let file = |name: &str| folder.join(format!("lib{name}.a"));
    for name in names {
        println!("cargo:rerun-if-changed={}", file(name).display());
    }
    let Some(name) = names.iter().find(|name| file(name).is_file()) else {
        println!(
            "cargo:warning={} is not there: run `tools/staticlib {name}` at the top of the \
             repository, or set CLOCKIVY_LIB_DIR to the folder that holds the library",
            file(names[0]).display(),
            name = names[0],
        );
        std::process::exit(1);
    };
    let folder = folder.canonicalize().expect("it holds the archive");
    println!("cargo:rustc-link-search=native={}", folder.display());
    println!("cargo:rustc-link-lib=static={name}");
}
