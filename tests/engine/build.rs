//! Links whatever uses this package with the engine's one archive, which `rt staticlib controller` writes; with the
//! one in the folder that the variable CONTROLLER_DIR names, where it is set, so that an older engine can be timed.

fn main() {
    let built = concat!(env!("CARGO_MANIFEST_DIR"), "/../../target/staticlib");
    let folder = std::env::var("CONTROLLER_DIR").unwrap_or(built.to_string());
    println!("cargo:rerun-if-env-changed=CONTROLLER_DIR");
    println!("cargo:rerun-if-changed={folder}/libcontroller.a");
    println!("cargo:rustc-link-search=native={folder}");
    println!("cargo:rustc-link-lib=static=controller");
}
