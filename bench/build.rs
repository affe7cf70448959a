//! Says where .ci/run copies the static library of crates/session_c, which src/engine.rs links.

fn main() {
    let root = std::path::Path::new(env!("CARGO_MANIFEST_DIR")).join("..");
    let lib = root.join("target").join("staticlib");
    println!("cargo:rustc-link-search=native={}", lib.display());
    println!("cargo:rerun-if-changed={}", lib.join("libsession.a").display());
}
