//! Says where the proved library's archive is.

fn main() {
    if std::env::var_os("CARGO_FEATURE_LIBRARY").is_some() {
        let folder = concat!(env!("CARGO_MANIFEST_DIR"), "/../crates/mekvalgs/out");
        println!("cargo:rustc-link-search=native={folder}");
        println!("cargo:rerun-if-changed={folder}/libmekvalgs.a");
    }
}
