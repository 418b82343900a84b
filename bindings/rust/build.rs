//! Links libclarity.a from the folder that CLARITY_LIBRARY names.
fn main() {
    println!("cargo:rerun-if-env-changed=CLARITY_LIBRARY");
    if let Ok(folder) = std::env::var("CLARITY_LIBRARY") {
        println!("cargo:rustc-link-search=native={folder}");
        println!("cargo:rerun-if-changed={folder}/libclarity.a");
    }
    println!("cargo:rustc-link-lib=static=clarity");
}
