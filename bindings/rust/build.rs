//! Says where the static library is: LARSAVIM_LIB_DIR, or the release's lib/ARCH beside this crate, or what the repository builds for x86-64.
use std::env;
use std::path::PathBuf;

fn main() {
    println!("cargo:rerun-if-env-changed=LARSAVIM_LIB_DIR");
    let arch = env::var("CARGO_CFG_TARGET_ARCH").unwrap_or_default();
    let here = PathBuf::from(env::var_os("CARGO_MANIFEST_DIR").expect("cargo says where the crate is"));
    let mut folders: Vec<PathBuf> = env::var_os("LARSAVIM_LIB_DIR").map(PathBuf::from).into_iter().collect();
    if folders.is_empty() {
        folders.push(here.join("../lib").join(&arch));
        if arch == "x86_64" {
            folders.push(here.join("../../target/staticlib"));
        }
    }
    for folder in &folders {
        println!("cargo:rerun-if-changed={}", folder.join("liblarsavim.a").display());
    }
    match folders.iter().find(|f| f.join("liblarsavim.a").is_file()) {
        Some(folder) => {
            println!("cargo:rustc-link-search=native={}", folder.display());
            println!("cargo:rustc-link-lib=static=larsavim");
        }
        // a library that isn't linked yet can still be checked and documented
        None => println!("cargo:warning=liblarsavim.a for {} is in none of {:?}; set LARSAVIM_LIB_DIR", arch, folders),
    }
}
