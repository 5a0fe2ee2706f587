// Links libtrackrouter.a, which `tools/staticlib` writes to target/staticlib at the repository's root.
use std::env;
use std::path::PathBuf;
use std::process::exit;

fn main() {
    println!("cargo:rerun-if-env-changed=TRACKROUTER_LIB_DIR");
    let folder = match env::var_os("TRACKROUTER_LIB_DIR") {
        Some(folder) => PathBuf::from(folder),
        None => {
            let package = env::var_os("CARGO_MANIFEST_DIR").expect("cargo sets it");
            PathBuf::from(package).join("../target/staticlib")
        }
    };
    let library = folder.join("libtrackrouter.a");
    if !library.exists() {
        eprintln!(
            "{} is not there: run tools/staticlib at the repository's root, or set TRACKROUTER_LIB_DIR",
            library.display()
        );
        exit(1);
    }
    println!("cargo:rerun-if-changed={}", library.display());
    println!("cargo:rustc-link-search=native={}", folder.display());
    println!("cargo:rustc-link-lib=static=trackrouter");
}
