// Links the archive of the folder CHHAYUBLO_LIB_DIR; by default the one that the repository's build writes.
use std::env;
use std::path::PathBuf;

fn main() {
    let here = PathBuf::from(env::var_os("CARGO_MANIFEST_DIR").expect("set by cargo"));
    let folder = match env::var_os("CHHAYUBLO_LIB_DIR") {
        Some(folder) => PathBuf::from(folder),
        None => here.join("../../target/staticlib"),
    };
    println!("cargo:rerun-if-env-changed=CHHAYUBLO_LIB_DIR");
    println!("cargo:rerun-if-changed={}", folder.join("libchhayublo.a").display());
    println!("cargo:rustc-link-search=native={}", folder.display());
    println!("cargo:rustc-link-lib=static=chhayublo");
}
