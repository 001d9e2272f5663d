//! Links the queries over a plan's rows: `c/archive queries_c` writes them to target/staticlib. The crate kartsodi links the public calls.
fn main() {
    let root = std::path::Path::new(env!("CARGO_MANIFEST_DIR")).join("../../target/staticlib");
    println!("cargo:rustc-link-search=native={}", root.display());
    println!("cargo:rustc-link-lib=static=queries_c");
    println!("cargo:rerun-if-changed={}", root.join("libqueries_c.a").display());
}
