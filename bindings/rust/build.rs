//! Links `libfunnel_c.a`, which lies in the folder that WAQDIMUR_LIB names.
fn main() {
    println!("cargo:rerun-if-env-changed=WAQDIMUR_LIB");
    let folder = std::env::var("WAQDIMUR_LIB").expect("set WAQDIMUR_LIB to the folder of libfunnel_c.a");
    println!("cargo:rerun-if-changed={folder}/libfunnel_c.a");
    println!("cargo:rustc-link-search=native={folder}");
}
