//! Tells the linker where the archive of the proved library is. Its name stands at the C calls, in
//! `src/proved.rs`, so that the plain library and its tests are built without it.

use std::env;
use std::path::Path;

fn main() {
    let package = env::var("CARGO_MANIFEST_DIR").expect("cargo names the package's folder");
    let folder = Path::new(&package).join("../crates/capi/out");
    println!("cargo:rustc-link-search=native={}", folder.display());
    println!(
        "cargo:rerun-if-changed={}",
        folder.join("libcapi.a").display()
    );
    println!("cargo:rerun-if-changed=build.rs");
}
