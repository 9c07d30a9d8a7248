//! Links the proved library, which `tools/build capi` writes.

fn main() {
    let folder = concat!(env!("CARGO_MANIFEST_DIR"), "/../../target/staticlib");
    let library = format!("{folder}/libcapi.a");
    let there = std::path::Path::new(&library).exists();
    assert!(there, "{library} is not there: `tools/build capi` writes it");
    println!("cargo:rustc-link-search=native={folder}");
    println!("cargo:rustc-link-lib=static=capi");
    println!("cargo:rerun-if-changed={library}");
}
