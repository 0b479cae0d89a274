//! Links libpacket_store.a from the folder that `FIMGRODA_STATICLIB` names, else from the one that
//! `make-library` writes to.

use std::env;
use std::path::Path;

fn main() {
    println!("cargo:rerun-if-env-changed=FIMGRODA_STATICLIB");
    let named = env::var("FIMGRODA_STATICLIB").unwrap_or("target/staticlib".into());
    // A relative folder is taken from the repository's top folder.
    let package = env::var("CARGO_MANIFEST_DIR").expect("cargo names the package's folder");
    let folder = Path::new(&package).join("..").join(&named);
    let archive = folder.join("libpacket_store.a");
    if !archive.is_file() {
        eprintln!("{} is not there.", archive.display());
        eprintln!(
            "Run `./make-library` in the top folder, or name its folder by FIMGRODA_STATICLIB."
        );
        std::process::exit(1);
    }
    println!("cargo:rerun-if-changed={}", archive.display());
    println!("cargo:rustc-link-search=native={}", folder.display());
    println!("cargo:rustc-link-lib=static=packet_store");
}
