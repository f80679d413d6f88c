//! Links the proved library, `libvchan_c.a`, from the folder that VCHAN_C_LIBRARY names, or else from where
//! c/proved-library makes it in the repository. In the repository the tests also get c/vchan_page.c, to put its ends
//! beside those of this crate, and the Rust code of docs/LIBRARY.md.
use std::env;
use std::path::PathBuf;
use std::process::{exit, Command};

fn main() {
    let here = PathBuf::from(env::var_os("CARGO_MANIFEST_DIR").expect("cargo sets it"));
    let folder =
        env::var_os("VCHAN_C_LIBRARY").map_or(here.join("../crates/vchan_c/out"), PathBuf::from);
    let library = folder.join("libvchan_c.a");
    println!("cargo:rerun-if-env-changed=VCHAN_C_LIBRARY");
    println!("cargo:rerun-if-changed={}", library.display());
    println!("cargo:rustc-check-cfg=cfg(in_repository)");
    if !library.exists() {
        eprintln!(
            "{} isn't there. Make it by c/proved-library in the repository, which takes minutes and the kit; or unpack a \
             vchan-page-*.tar.gz and set VCHAN_C_LIBRARY to its folder",
            library.display()
        );
        exit(1);
    }
    println!("cargo:rustc-link-search=native={}", folder.display());

    let shim = here.join("../c/vchan_page.c");
    if !shim.exists() {
        return;
    }
    let object = PathBuf::from(env::var_os("OUT_DIR").expect("cargo sets it")).join("vchan_page.o");
    println!("cargo:rerun-if-changed={}", shim.display());
    let made = Command::new("cc")
        .args(["-std=c11", "-O2", "-c", "-o"])
        .arg(&object)
        .arg(&shim)
        .status();
    if made.is_ok_and(|status| status.success()) {
        println!("cargo:rustc-cfg=in_repository");
        println!("cargo:rustc-link-arg-tests={}", object.display());
    }
}
