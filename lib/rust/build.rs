//! Links libroam.a: that of ROAM_LIB_DIR, or the one that `lib/build` has left in the repository.

fn main() {
    println!("cargo:rerun-if-env-changed=ROAM_LIB_DIR");
    let built = concat!(env!("CARGO_MANIFEST_DIR"), "/../out/lib");
    let folder = std::env::var("ROAM_LIB_DIR").unwrap_or_else(|_| built.into());
    let archive = std::path::Path::new(&folder).join("libroam.a");
    assert!(archive.exists(), "there is no {}: run lib/build, or name the folder of libroam.a in ROAM_LIB_DIR", archive.display());
    println!("cargo:rerun-if-changed={}", archive.display());
    println!("cargo:rustc-link-search=native={folder}");
    println!("cargo:rustc-link-lib=static=roam");
}
