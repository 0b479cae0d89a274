//! Finds the folder of the reference Rust and hands it on as `REFERENCE_FOLDER`.

use std::env;
use std::path::Path;

fn main() {
    println!("cargo:rerun-if-env-changed=FIMGRODA_REFERENCE");
    let named = env::var("FIMGRODA_REFERENCE").unwrap_or("../shared/docs/src".into());
    // A relative folder is taken from the repository's top folder.
    let package = env::var("CARGO_MANIFEST_DIR").expect("cargo names the package's folder");
    let folder = Path::new(&package).join("../..").join(&named);
    for file in ["src/sp.rs", "src/spp.rs"] {
        let path = folder.join(file);
        if !path.is_file() {
            eprintln!("{} is not there.", path.display());
            eprintln!("Set FIMGRODA_REFERENCE to the folder that has src/sp.rs and src/spp.rs.");
            std::process::exit(1);
        }
        println!("cargo:rerun-if-changed={}", path.display());
    }
    println!("cargo:rustc-env=REFERENCE_FOLDER={}", folder.display());
}
