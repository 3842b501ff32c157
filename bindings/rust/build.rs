//! Links `libsd_device_c.a` from the folder that SUNDIAL_DEVICE_LIB names, or from where `rt lib`
//! makes it.

fn main() {
    let folder = std::env::var("SUNDIAL_DEVICE_LIB").unwrap_or_else(|_| {
        let top = std::env::var("CARGO_MANIFEST_DIR").unwrap();
        format!("{top}/../../crates/sd_device_c/out")
    });
    println!("cargo:rustc-link-search=native={folder}");
    println!("cargo:rustc-link-lib=static=sd_device_c");
    println!("cargo:rerun-if-env-changed=SUNDIAL_DEVICE_LIB");
}
