//! Links the static library that `LUVRODAN_ARCHIVE` names: a path, absolute or from the top of the repository.

use std::env;
use std::path::PathBuf;

fn main() {
    println!("cargo:rerun-if-env-changed=LUVRODAN_ARCHIVE");
    let Some(named) = env::var_os("LUVRODAN_ARCHIVE") else {
        panic!("set LUVRODAN_ARCHIVE to the static library that `. wrapper/archive.sh` makes, target/staticlib/libNAME.a");
    };
    let wrapper = PathBuf::from(env::var_os("CARGO_MANIFEST_DIR").expect("cargo sets the crate's folder"));
    let archive = wrapper.join("..").join(named);
    let stem = archive.file_stem().and_then(|stem| stem.to_str()).unwrap_or_default();
    let (Some(name), Ok(archive)) = (stem.strip_prefix("lib"), archive.canonicalize()) else {
        panic!("LUVRODAN_ARCHIVE: {} is no static library libNAME.a", archive.display());
    };
    let folder = archive.parent().expect("a file stands in a folder");
    println!("cargo:rerun-if-changed={}", archive.display());
    println!("cargo:rustc-link-search=native={}", folder.display());
    println!("cargo:rustc-link-lib=static={name}");
}
