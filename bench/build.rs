//! Links the proved calls: target/staticlib/libbench_calls.a, which bench/run makes of the crate bench_calls_c.

fn main() {
    let folder = concat!(env!("CARGO_MANIFEST_DIR"), "/../target/staticlib");
    println!("cargo:rustc-link-search=native={folder}");
    println!("cargo:rustc-link-lib=static=bench_calls");
    println!("cargo:rerun-if-changed={folder}/libbench_calls.a");
}
