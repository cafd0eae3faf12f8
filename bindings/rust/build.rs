// Links libchhayublo.a.
// - From the folder CHHAYUBLO_LIB_DIR, if that is set. A relative one is looked for from where cargo was called, as the variable PWD
//   tells it, and then from this package's folder, where build scripts run: the first that has the archive is taken.
// - Else from the repository's target/staticlib. Where `rt` is on the PATH it first brings the archive up to date: again whenever the
//   library's sources change, which takes minutes at first, and about one afterwards. Elsewhere the archive is taken as it is.
use std::env;
use std::io::ErrorKind;
use std::path::{Path, PathBuf};
use std::process::{Command, Stdio};

const ARCHIVE: &str = "libchhayublo.a";

fn lent_folder(lent: PathBuf, package: &Path) -> PathBuf {
    if lent.is_relative() {
        println!("cargo:rerun-if-env-changed=PWD");
    }
    let called = env::var_os("PWD").map(PathBuf::from);
    let places: Vec<PathBuf> = called.iter().map(PathBuf::as_path).chain([package]).map(|place| place.join(&lent)).collect();
    let found = places.iter().find(|place| place.join(ARCHIVE).exists());
    found.unwrap_or_else(|| panic!("CHHAYUBLO_LIB_DIR: {ARCHIVE} is not in any of {places:?}")).clone()
}

fn own_folder(root: &Path) -> PathBuf {
    let folder = root.join("target/staticlib");
    match Command::new("rt").arg("version").stdout(Stdio::null()).status() {
        Err(error) if error.kind() == ErrorKind::NotFound => watch(&folder),
        _ => match Command::new(root.join("archive")).status() {
            Ok(status) if status.success() => watch_sources(root),
            other => panic!("`./archive` in {} failed: {other:?}; or set CHHAYUBLO_LIB_DIR", root.display()),
        },
    }
    let archive = folder.join(ARCHIVE);
    assert!(archive.exists(), "{} is missing: call `./archive`, or set CHHAYUBLO_LIB_DIR", archive.display());
    folder
}

fn watch(folder: &Path) {
    println!("cargo:rerun-if-changed={}", folder.join(ARCHIVE).display());
}

/// not what rt makes in a crate's `out`, which is written anew each time, and the archive with it
fn watch_sources(root: &Path) {
    println!("cargo:rerun-if-changed={}", root.join("crates.txt").display());
    for entry in root.join("crates").read_dir().expect("the crates are there") {
        let place = entry.expect("it can be read").path();
        for part in ["src", "specs", "proofs"].map(|part| place.join(part)).iter().filter(|part| part.exists()) {
            println!("cargo:rerun-if-changed={}", part.display());
        }
    }
}

fn main() {
    println!("cargo:rerun-if-env-changed=CHHAYUBLO_LIB_DIR");
    println!("cargo:rerun-if-changed=build.rs");
    let package = PathBuf::from(env::var_os("CARGO_MANIFEST_DIR").expect("set by cargo"));
    let folder = match env::var_os("CHHAYUBLO_LIB_DIR") {
        Some(lent) => {
            let folder = lent_folder(lent.into(), &package);
            watch(&folder);
            folder
        }
        None => own_folder(&package.join("../..")),
    };
    println!("cargo:rustc-link-search=native={}", folder.display());
    println!("cargo:rustc-link-lib=static=chhayublo");
}
