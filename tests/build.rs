//! Where the tests find the library: .ci/build puts it into target/staticlib at the top of the repository.

use std::env;
use std::path::Path;

fn main() {
    let tests = env::var("CARGO_MANIFEST_DIR").expect("cargo names this folder");
    let folder = Path::new(&tests).join("../target/staticlib");
    println!("cargo:rustc-link-search=native={}", folder.display());
    println!("cargo:rerun-if-changed={}", folder.display());
}
