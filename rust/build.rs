//! Links the proved static library. MAVDRUSEK_LIB_DIR names its folder where that is not `target/staticlib` of the repository.

use std::env;
use std::path::PathBuf;
use std::process::exit;

fn main() {
    println!("cargo:rerun-if-env-changed=MAVDRUSEK_LIB_DIR");
    let folder = match env::var_os("MAVDRUSEK_LIB_DIR") {
        Some(given) => PathBuf::from(given),
        None => PathBuf::from(env::var_os("CARGO_MANIFEST_DIR").expect("cargo sets it")).join("../target/staticlib"),
    };
    let library = folder.join("libc_api.a");
    println!("cargo:rerun-if-changed={}", library.display());
    if !library.is_file() {
        eprintln!("{} is missing: run `tools/archive` first", library.display());
        exit(1);
    }
    println!("cargo:rustc-link-search=native={}", folder.display());
    println!("cargo:rustc-link-lib=static=c_api");
}
