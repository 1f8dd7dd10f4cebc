//! Says where librv is: in the folder that RV_LIB_DIR names, else where pkg-config says.

use std::env;
use std::process::Command;

fn main() {
    println!("cargo:rerun-if-env-changed=RV_LIB_DIR");
    let folder = env::var("RV_LIB_DIR").ok().or_else(installed);
    if let Some(folder) = folder {
        println!("cargo:rustc-link-search=native={folder}");
    }
    println!("cargo:rustc-link-lib=dylib=rv");
}

/// The folder of an installed library.
fn installed() -> Option<String> {
    let said = Command::new("pkg-config")
        .args(["--variable=libdir", "rv"])
        .output()
        .ok()?;
    let folder = String::from_utf8(said.stdout).ok()?.trim().to_string();
    (said.status.success() && !folder.is_empty()).then_some(folder)
}
