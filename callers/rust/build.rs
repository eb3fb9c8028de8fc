//! Links `liborder.a` of the folder `lib` beside this file, for aarch64 of the one in it, or of the
//! folder that ORDER_LIB_DIR names.
use std::env;
use std::path::PathBuf;

const LIBRARY: &str = "liborder.a";

fn main() {
    println!("cargo::rerun-if-env-changed=ORDER_LIB_DIR");
    let here = PathBuf::from(env::var_os("CARGO_MANIFEST_DIR").expect("cargo sets it"));
    let of_platform = match env::var("CARGO_CFG_TARGET_ARCH").as_deref() {
        Ok("aarch64") => "lib/aarch64",
        _ => "lib",
    };
    let folder = here.join(env::var_os("ORDER_LIB_DIR").unwrap_or(of_platform.into()));
    let library = folder.join(LIBRARY);
    println!("cargo::rerun-if-changed={}", library.display());
    if library.is_file() {
        println!("cargo::rustc-link-search=native={}", folder.display());
        println!("cargo::rustc-link-lib=static=order");
    } else {
        let folder = folder.display();
        println!(
            "cargo::error={LIBRARY} is not in {folder}: tools/bind puts it there, or set ORDER_LIB_DIR to its folder"
        );
    }
}
