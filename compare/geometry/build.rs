//! Links the proved polyline and stations: `c/archive geometry_c` writes it to target/staticlib.
fn main() {
    let root = std::path::Path::new(env!("CARGO_MANIFEST_DIR")).join("../../target/staticlib");
    println!("cargo:rustc-link-search=native={}", root.display());
    println!("cargo:rustc-link-lib=static=geometry_c");
    println!("cargo:rerun-if-changed={}", root.join("libgeometry_c.a").display());
}
