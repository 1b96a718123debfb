//! libdiminurel.a is looked for in the folder DIMINUREL_LIB, or else where `tools/build.sh diminurel` puts it. It
//! becomes part of this package, which is built anew where the library has changed.

use std::env::var_os;
use std::path::{Path, PathBuf};

fn main() {
    println!("cargo::rerun-if-env-changed=DIMINUREL_LIB");
    let own = Path::new(&var_os("CARGO_MANIFEST_DIR").unwrap_or_default()).join("../../target/staticlib");
    let folder = var_os("DIMINUREL_LIB").map_or(own, PathBuf::from);
    let library = folder.join("libdiminurel.a");
    println!("cargo::rerun-if-changed={}", library.display());
    if library.is_file() {
        println!("cargo::rustc-link-search=native={}", folder.display());
    } else {
        println!("cargo::error=there is no {}", library.display());
        println!(
            "cargo::error=`tools/build.sh diminurel`, at the top of the repository, puts it into target/staticlib"
        );
        println!("cargo::error=DIMINUREL_LIB names its folder; where it is not set, it is looked for there");
    }
}
