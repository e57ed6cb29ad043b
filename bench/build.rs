// Links the static library that bench/run has written in crates/bench; `aaru` links its own.
fn main() {
    let library = concat!(env!("CARGO_MANIFEST_DIR"), "/../crates/bench/out");
    println!("cargo:rustc-link-search=native={library}");
    println!("cargo:rustc-link-lib=static=bench");
    println!("cargo:rerun-if-changed={library}/libbench.a");
}
