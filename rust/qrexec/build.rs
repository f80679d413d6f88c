//! Links the proved library, `libqrexec_c.a`, from the folder that QREXEC_C_LIBRARY names, or else from where `rt lib`
//! makes it in the repository.
use std::env;
use std::path::PathBuf;
use std::process::exit;

fn main() {
    let here = PathBuf::from(env::var_os("CARGO_MANIFEST_DIR").expect("cargo sets it"));
    let folder = env::var_os("QREXEC_C_LIBRARY")
        .map_or(here.join("../../crates/qrexec_c/out"), PathBuf::from);
    let library = folder.join("libqrexec_c.a");
    println!("cargo:rerun-if-env-changed=QREXEC_C_LIBRARY");
    println!("cargo:rerun-if-changed={}", library.display());
    if !library.exists() {
        eprintln!(
            "{} isn't there. Make it by `rt lib` in crates/qrexec_c of the repository, which takes minutes and the kit",
            library.display()
        );
        exit(1);
    }
    println!("cargo:rustc-link-search=native={}", folder.display());
}
