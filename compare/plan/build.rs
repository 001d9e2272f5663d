//! Links the proved reader: `c/archive plan_c` writes it to target/staticlib.
fn main() {
    let root = std::path::Path::new(env!("CARGO_MANIFEST_DIR")).join("../../target/staticlib");
    println!("cargo:rustc-link-search=native={}", root.display());
    println!("cargo:rustc-link-lib=static=plan_c");
    println!("cargo:rerun-if-changed={}", root.join("libplan_c.a").display());
}
