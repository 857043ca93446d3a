//! Links the library: libcoghammer.a as `make install` leaves it or libcapi.a as `tools/build capi` builds it, from
//! the folder that COGHAMMER_LIB names, or from ../../target/staticlib.

use std::env;
use std::path::PathBuf;
use std::process::exit;

fn main() {
    let here = PathBuf::from(env::var_os("CARGO_MANIFEST_DIR").expect("cargo sets it"));
    let folder = env::var_os("COGHAMMER_LIB").map_or(here.join("../../target/staticlib"), PathBuf::from);
    println!("cargo:rerun-if-env-changed=COGHAMMER_LIB");
    let found = ["coghammer", "capi"].into_iter().find(|name| folder.join(format!("lib{name}.a")).exists());
    let Some(name) = found else {
        println!("cargo:rerun-if-changed={}", folder.display());
        eprintln!("coghammer: no libcoghammer.a and no libcapi.a in {}", folder.display());
        eprintln!("Build it with `tools/build capi` in the project's root, or set COGHAMMER_LIB to the folder that has it.");
        exit(1);
    };
    println!("cargo:rerun-if-changed={}", folder.join(format!("lib{name}.a")).display());
    println!("cargo:rustc-link-search=native={}", folder.display());
    println!("cargo:rustc-link-lib=static:-bundle={name}");
}
