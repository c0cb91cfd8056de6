//! Links the archive of Sweep's C function, which `tools/prove lib sweep_c` writes.

use std::path::Path;

fn main() {
    let package = std::env::var("CARGO_MANIFEST_DIR").expect("cargo names the package's folder");
    let folder = Path::new(&package).join("../target/staticlib");
    println!(
        "cargo:rerun-if-changed={}",
        folder.join("libsweep_c.a").display()
    );
    println!("cargo:rustc-link-search=native={}", folder.display());
    println!("cargo:rustc-link-lib=static=sweep_c");
}
