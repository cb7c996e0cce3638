//! Links the proved library, which `host/library` writes.

fn main() {
    let root = std::env::var("CARGO_MANIFEST_DIR").expect("set by cargo");
    println!("cargo:rustc-link-search=native={root}/../target/staticlib");
    println!("cargo:rustc-link-lib=static=firmware");
}
