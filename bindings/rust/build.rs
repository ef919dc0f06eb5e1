//! Links the proved library: libllunareth.a in the folder that LLUNARETH_LIB_DIR names, an absolute path; where it is not set or empty, that of
//! the repository, which `rt lib` in crates/exports makes, or else of the installed copy that this package stands in.
use std::path::{Path, PathBuf};
use std::process::exit;

/// Where the library may stand, in the order in which it is looked for.
fn places() -> Vec<PathBuf> {
    let package = Path::new(env!("CARGO_MANIFEST_DIR"));
    match std::env::var_os("LLUNARETH_LIB_DIR").filter(|folder| !folder.is_empty()) {
        Some(folder) => vec![package.join(folder).join("libllunareth.a")],
        None => vec![package.join("../../crates/exports/out/libexports.a"), package.join("../../../lib/libllunareth.a")],
    }
}

fn main() {
    println!("cargo:rerun-if-env-changed=LLUNARETH_LIB_DIR");
    let places = places();
    let Some(library) = places.iter().find_map(|place| place.canonicalize().ok()) else {
        let looked = places.iter().map(|place| format!("\n  {}", place.display())).collect::<String>();
        eprintln!("The proved library is not there. Looked for:{looked}");
        eprintln!("In the repository this makes it: (cd crates/exports && rt lib)");
        eprintln!("An installed one is found by LLUNARETH_LIB_DIR, the folder of libllunareth.a.");
        exit(1);
    };
    let name = library.file_stem().and_then(|stem| stem.to_str()).and_then(|stem| stem.strip_prefix("lib")).expect("a library's name");
    println!("cargo:rustc-link-search=native={}", library.parent().expect("a folder").display());
    println!("cargo:rustc-link-lib=static={name}");
    println!("cargo:rerun-if-changed={}", library.display());
}
