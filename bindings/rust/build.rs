// Links the static library that `rt lib --cpu=x86-64` writes in crates/aaru_c.
fn main() {
    let library = concat!(env!("CARGO_MANIFEST_DIR"), "/../../crates/aaru_c/out");
    println!("cargo:rustc-link-search=native={library}");
    println!("cargo:rustc-link-lib=static=aaru_c");
    println!("cargo:rerun-if-changed={library}/libaaru_c.a");
}
