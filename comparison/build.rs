//! Links libloader.a, from the folder in LOADER_LIBRARY_DIR or from ../target/staticlib.

use std::path::PathBuf;

fn main() {
    println!("cargo:rerun-if-env-changed=LOADER_LIBRARY_DIR");
    let folder = match std::env::var_os("LOADER_LIBRARY_DIR") {
        Some(folder) => PathBuf::from(folder),
        None => PathBuf::from("../target/staticlib"),
    };
    let archive = folder.join("libloader.a");
    println!("cargo:rerun-if-changed={}", archive.display());
    match archive.canonicalize() {
        Ok(found) => {
            let folder = found.parent().unwrap_or(&folder);
            println!("cargo:rustc-link-search=native={}", folder.display());
            println!("cargo:rustc-link-lib=static=loader");
        }
        Err(_) => {
            let name = archive.display();
            eprintln!("there is no {name}: run tools/library at the top of the repository");
            std::process::exit(1);
        }
    }
}
