//! Tells the linker where libcapi.a and libcapi_f32.a lie, where CAPI_DIR names their folder.
fn main() {
    println!("cargo:rerun-if-changed=build.rs");
    println!("cargo:rerun-if-env-changed=CAPI_DIR");
    if let Ok(folder) = std::env::var("CAPI_DIR") {
        println!("cargo:rustc-link-search=native={folder}");
        println!("cargo:rerun-if-changed={folder}/libcapi.a");
        println!("cargo:rerun-if-changed={folder}/libcapi_f32.a");
    }
}
