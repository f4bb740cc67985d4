// Links libcurator_c.a and libhit_records.a, which `tools/static_libraries` writes to target/staticlib. CURATOR_LIB_DIR names another folder.
use std::env;
use std::path::PathBuf;

fn main() {
    let folder = match env::var_os("CURATOR_LIB_DIR") {
        Some(folder) => PathBuf::from(folder),
        None => PathBuf::from(env::var_os("CARGO_MANIFEST_DIR").expect("cargo sets it"))
            .join("../target/staticlib"),
    };
    println!("cargo:rerun-if-env-changed=CURATOR_LIB_DIR");
    println!("cargo:rustc-link-search=native={}", folder.display());
    for name in ["curator_c", "hit_records"] {
        let library = folder.join(format!("lib{name}.a"));
        println!("cargo:rerun-if-changed={}", library.display());
        println!("cargo:rustc-link-lib=static={name}");
    }
}
