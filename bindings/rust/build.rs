//! Links libcozgelt.a of the folder that COZGELT_LIB_DIR names, else of lib/ beside this file, where the package has it, else of
//! ../c/out, where `make` puts it.
use std::env;
use std::path::PathBuf;

fn main() {
    let here = PathBuf::from(env::var_os("CARGO_MANIFEST_DIR").unwrap());
    let target = ["ARCH", "OS"].map(|of| env::var(format!("CARGO_CFG_TARGET_{of}")).unwrap());
    assert!(
        target == ["x86_64", "linux"],
        "libcozgelt.a is for Linux on x86-64"
    );
    let named = env::var_os("COZGELT_LIB_DIR").map(PathBuf::from);
    let beside = Some(here.join("lib")).filter(|folder| folder.exists());
    let folder = named.or(beside).unwrap_or_else(|| here.join("../c/out"));
    let library = folder.join("libcozgelt.a");
    assert!(
        library.exists(),
        "there is no {}: see docs/LIBRARY.md of Cozgelt",
        library.display()
    );
    println!("cargo:rerun-if-env-changed=COZGELT_LIB_DIR");
    println!("cargo:rerun-if-changed={}", library.display());
    println!("cargo:rustc-link-search=native={}", folder.display());
    println!("cargo:rustc-link-lib=static=cozgelt");
}
