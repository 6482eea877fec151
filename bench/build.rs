// Links the proved static library, which `rt lib` in crates/firmware writes.
fn main() {
    let root = std::env::var("CARGO_MANIFEST_DIR").expect("set by cargo");
    println!("cargo:rustc-link-search=native={root}/../crates/firmware/out");
    println!("cargo:rustc-link-lib=static=firmware");
    println!("cargo:rerun-if-changed={root}/../crates/firmware/out/libfirmware.a");
}
