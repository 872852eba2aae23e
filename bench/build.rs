//! Links the archive that `bench/build` made, and zlib where it is there.
use std::path::Path;

fn main() {
    let package = std::env::var("CARGO_MANIFEST_DIR").unwrap();
    let proved = Path::new(&package).join("target/proved");
    println!("cargo::rerun-if-changed=build.rs");
    println!("cargo::rerun-if-changed={}", proved.join("libbench_jobs.a").display());
    if !proved.join("libbench_jobs.a").exists() {
        println!("cargo::error=no target/proved/libbench_jobs.a: run bench/build first");
        return;
    }
    println!("cargo::rustc-link-search=native={}", proved.display());
    println!("cargo::rustc-link-lib=static=bench_jobs");
    let machine = std::env::var("CARGO_CFG_TARGET_ARCH").unwrap();
    let places = [
        format!("/usr/lib/{machine}-linux-gnu"),
        "/usr/lib64".into(),
        "/usr/lib".into(),
    ];
    if places.iter().any(|place| Path::new(place).join("libz.so").exists()) {
        println!("cargo::rustc-link-lib=dylib=z");
        println!("cargo::rustc-cfg=zlib");
    }
}
