//! Links the proved libraries' entries: the archive that `rt lib` writes in `crates/bench_entry`, which `bench/run` puts there.

fn main() {
    let folder = concat!(env!("CARGO_MANIFEST_DIR"), "/../../target/staticlib");
    println!("cargo:rustc-link-search=native={folder}");
    println!("cargo:rustc-link-lib=static=bench_entry");
    println!("cargo:rerun-if-changed={folder}/libbench_entry.a");
}
