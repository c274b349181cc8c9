// With the feature `port`: links the port's static library, which
// `.ci/build ffi` writes to ../target/staticlib/libffi.a, or the one that
// MORKHETTA_LIB names. That may be a shared one, which is looked for again when
// the program starts (`slips.sh`).

use std::path::{Path, PathBuf};

fn main() {
    println!("cargo:rerun-if-env-changed=MORKHETTA_LIB");
    if std::env::var_os("CARGO_FEATURE_PORT").is_none() {
        return;
    }
    let library = library();
    assert!(
        library.is_file(),
        "{}: not there (run `.ci/build ffi`, or set MORKHETTA_LIB)",
        library.display()
    );
    println!("cargo:rerun-if-changed={}", library.display());
    println!("cargo:rustc-link-search=native={}", library.parent().unwrap().display());
    let (name, kind) = name_and_kind(&library);
    println!("cargo:rustc-link-lib={kind}={name}");
}

fn library() -> PathBuf {
    let here = std::env::var("CARGO_MANIFEST_DIR").expect("cargo sets it");
    let named = std::env::var_os("MORKHETTA_LIB");
    let path = named.unwrap_or_else(|| "../target/staticlib/libffi.a".into());
    Path::new(&here).join(path)
}

/// `ffi` and `static` for `libffi.a`; `dylib` for `libNAME.so`.
fn name_and_kind(library: &Path) -> (&str, &str) {
    let name = library.file_name().and_then(|name| name.to_str()).unwrap_or_default();
    let stem = name.strip_prefix("lib").and_then(|name| name.split_once('.'));
    match stem {
        Some((name, "a")) => (name, "static"),
        Some((name, "so")) => (name, "dylib"),
        _ => panic!("{name}: a library is named libNAME.a or libNAME.so"),
    }
}
