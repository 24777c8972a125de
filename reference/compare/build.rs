//! Where the proved static library is found when the feature `linked` is on: where tools/library writes it, or the directory that
//! ARVADUSH_LIBRARY names; serves every section.

fn main() {
    println!("cargo:rerun-if-env-changed=ARVADUSH_LIBRARY");
    if std::env::var_os("CARGO_FEATURE_LINKED").is_some() {
        let written = concat!(env!("CARGO_MANIFEST_DIR"), "/../../target/staticlib");
        let directory = std::env::var("ARVADUSH_LIBRARY").unwrap_or(written.to_string());
        println!("cargo:rustc-link-search=native={directory}");
        println!("cargo:rerun-if-changed={directory}/libffi.a");
    }
}
