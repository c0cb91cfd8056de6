// Links the archives of the proved search, of Sweep and of Windows, which `tools/prove lib` writes of search_c, sweep_c and windows_c.
use std::path::Path;

fn main() {
    let bench = std::env::var("CARGO_MANIFEST_DIR").expect("cargo names the folder of the package");
    let folder = Path::new(&bench).join("../target/staticlib");
    println!("cargo:rustc-link-search=native={}", folder.display());
    for name in ["search_c", "sweep_c", "windows_c"] {
        println!("cargo:rerun-if-changed={}", folder.join(format!("lib{name}.a")).display());
        println!("cargo:rustc-link-lib=static={name}");
    }
}
