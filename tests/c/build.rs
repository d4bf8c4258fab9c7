//! Links the verified functions: `./build archive` writes the archive. Says which programs are installed that some tests
//! need: without them these tests are ignored, and not counted.

use std::env;
use std::path::Path;
use std::process::Command;

fn main() {
    let root = env::var("CARGO_MANIFEST_DIR").expect("cargo names the package's folder");
    let folder = Path::new(&root).join("../../target/staticlib");
    let archive = folder.join("libmcx11.a");
    assert!(archive.exists(), "{} is missing: run `./build archive` first", archive.display());
    println!("cargo:rustc-link-search=native={}", folder.display());
    println!("cargo:rustc-link-lib=static=mcx11");
    println!("cargo:rerun-if-changed={}", archive.display());
    println!("cargo:rerun-if-env-changed=PATH");
    for (program, name) in [("pkg-config", "has_pkg_config"), ("cmake", "has_cmake"), ("doxygen", "has_doxygen")] {
        println!("cargo:rustc-check-cfg=cfg({name})");
        if Command::new(program).arg("--version").output().is_ok_and(|output| output.status.success()) {
            println!("cargo:rustc-cfg={name}");
        }
    }
}
