//! Links the library's archive: from the folder that `OUL_ARCHIVES` names, else from where
//! `bin/build oul_c` puts it in this repository.

use std::env;
use std::path::{absolute, PathBuf};

fn main() {
    println!("cargo::rerun-if-env-changed=OUL_ARCHIVES");
    let named = env::var_os("OUL_ARCHIVES").map(PathBuf::from);
    let folder = absolute(named.unwrap_or("../target/staticlib".into())).expect("a folder");
    let archive = folder.join("liboul_c.a");
    println!("cargo::rerun-if-changed={}", archive.display());
    if !archive.is_file() {
        println!(
            "cargo::error={} is missing: `bin/build oul_c` makes it, OUL_ARCHIVES names another folder",
            archive.display()
        );
        return;
    }
    println!("cargo::rustc-link-search=native={}", folder.display());
    println!("cargo::rustc-link-lib=static=oul_c");
}
