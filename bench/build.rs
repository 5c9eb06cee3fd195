//! Links the static library that `run` built, and the kit's few lines of C between it and `malloc`.

use std::env::var;

/// The folder that `run` names.
fn folder(name: &str) -> String {
    println!("cargo::rerun-if-env-changed={name}");
    var(name).unwrap_or_else(|_| panic!("{name} is not set: start bench/run"))
}

fn main() {
    let machine = folder("BENCH_LIBRARY");
    let kit = folder("BENCH_KIT_C");
    println!("cargo::rustc-link-search=native={machine}");
    println!("cargo::rustc-link-search=native={kit}");
    println!("cargo::rerun-if-changed={machine}/libbench_ffi.a");
    println!("cargo::rustc-link-lib=static=bench_ffi");
    println!("cargo::rustc-link-lib=static=libc_c");
}
