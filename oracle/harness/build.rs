//! Links the library for this machine's own processor; `BRIDGEYARN_LIB` is the folder that holds it.
fn main() {
    let folder = std::env::var("BRIDGEYARN_LIB").expect("BRIDGEYARN_LIB names the folder of libbridgeyarn.a");
    println!("cargo:rustc-link-search=native={folder}");
    println!("cargo:rustc-link-lib=static=bridgeyarn");
    println!("cargo:rerun-if-changed={folder}/libbridgeyarn.a");
    println!("cargo:rerun-if-env-changed=BRIDGEYARN_LIB");
}
