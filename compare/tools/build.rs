//! Links the static library of the crate curator_c, from the folder CURATOR_LIB.
fn main() {
    println!("cargo:rerun-if-env-changed=CURATOR_LIB");
    let folder = std::env::var("CURATOR_LIB").expect("CURATOR_LIB: the folder of libcurator_c.a");
    println!("cargo:rerun-if-changed={folder}/libcurator_c.a");
    println!("cargo:rustc-link-search=native={folder}");
    println!("cargo:rustc-link-lib=static=curator_c");
}
