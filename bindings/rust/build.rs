//! Links libsa110.a, which tools/library writes, out of the folder that SA110_LIBRARIES names, or target/staticlib.

fn main() {
    let root = std::env::var("CARGO_MANIFEST_DIR").expect("cargo sets it");
    let folder = std::env::var("SA110_LIBRARIES")
        .unwrap_or_else(|_| format!("{root}/../../target/staticlib"));
    println!("cargo:rerun-if-env-changed=SA110_LIBRARIES");
    println!("cargo:rustc-link-search=native={folder}");
    println!("cargo:rustc-link-lib=static=sa110");
    println!("cargo:rerun-if-changed={folder}/libsa110.a");
}
