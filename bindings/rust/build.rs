//! Links libcvec.a: that of the folder that CVEC_LIB names, and else of the repository that this crate stands in, where `make
//! libraries` makes it, or of the install that it belongs to.
use std::env;
use std::path::{Path, PathBuf};

/// An install has its list of files beside the crate. The folder `lib` beside a checkout is another's.
fn folder_of_its_own(here: &Path) -> PathBuf {
    here.join(if here.join("../files").exists() { "../../../lib" } else { "../../out/lib" })
}

/// The folder that is named has to have it.
fn folder_of_library() -> PathBuf {
    if let Some(named) = env::var_os("CVEC_LIB").filter(|it| !it.is_empty()).map(PathBuf::from) {
        assert!(named.join("libcvec.a").exists(), "CVEC_LIB names {}, which has no libcvec.a", named.display());
        return named;
    }
    let here = PathBuf::from(env::var_os("CARGO_MANIFEST_DIR").expect("cargo names the crate's folder"));
    let own = folder_of_its_own(&here);
    assert!(
        own.join("libcvec.a").exists(),
        "there is no libcvec.a: `make libraries` in the repository makes it, and CVEC_LIB names a folder that has it"
    );
    own
}

fn main() {
    let found = folder_of_library();
    println!("cargo:rerun-if-env-changed=CVEC_LIB");
    println!("cargo:rerun-if-changed={}", found.join("libcvec.a").display());
    println!("cargo:rustc-link-search=native={}", found.display());
    println!("cargo:rustc-link-lib=static=cvec");
}
