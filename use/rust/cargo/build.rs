//! Tells cargo where the archive is: beside this file.

use std::env;

fn main() {
    let of = |name: &str| env::var(name).expect("a variable that cargo sets");
    let processor = of("CARGO_CFG_TARGET_ARCH");
    assert!(
        processor == "x86_64",
        "liblivomashen.a is for x86-64, and this build is for {processor}"
    );
    println!(
        "cargo:rustc-link-search=native={}",
        of("CARGO_MANIFEST_DIR")
    );
    println!("cargo:rustc-link-lib=static=livomashen");
    println!("cargo:rerun-if-changed=liblivomashen.a");
}
