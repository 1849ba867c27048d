//! Links the archives that `tools/build.sh honemagenta pair_c` writes to
//! target/staticlib.

use std::path::Path;

fn main() {
    let folder = Path::new(env!("CARGO_MANIFEST_DIR")).join("../../target/staticlib");
    println!("cargo:rustc-link-search=native={}", folder.display());
    for name in ["honemagenta", "pair_c"] {
        let archive = folder.join(format!("lib{name}.a"));
        assert!(
            archive.exists(),
            "{} is not there: run `tools/build.sh {name}`",
            archive.display()
        );
        println!("cargo:rerun-if-changed={}", archive.display());
        println!("cargo:rustc-link-lib=static={name}");
    }
}
