//! Finds the proved static library: in the folder that VAULT_LIB names, by its whole path, or where scripts/build.sh copies it.
use std::{env, path::PathBuf};

fn main() {
    let repository = PathBuf::from("../../target/staticlib");
    let folder = env::var_os("VAULT_LIB").map_or(repository, PathBuf::from);
    let archive = folder.join("libvault.a");
    println!("cargo::rerun-if-env-changed=VAULT_LIB");
    println!("cargo::rerun-if-changed={}", archive.display());
    // The linker is run from another folder, so it needs the whole path.
    match archive.canonicalize() {
        Ok(whole) => {
            let folder = whole.parent().unwrap_or(&whole).display();
            println!("cargo::rustc-link-search=native={folder}");
            println!("cargo::rustc-link-lib=static=vault");
        }
        Err(error) => println!(
            "cargo::error={}: {error}. Run `./vault --help` at the top of the repository, which builds it, or let \
             VAULT_LIB name the folder that has libvault.a",
            archive.display()
        ),
    }
}
