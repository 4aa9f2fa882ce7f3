//! Tells the linker where libfumarehi.a stands: in FUMAREHI_LIB_DIR, or where pkg-config finds it.

use std::env;
use std::process::Command;

fn installed() -> Option<String> {
    let found = Command::new("pkg-config").args(["--variable=libdir", "fumarehi"]).output().ok().filter(|found| found.status.success())?;
    Some(String::from_utf8(found.stdout).ok()?.trim().to_string())
}

fn main() {
    println!("cargo:rerun-if-env-changed=FUMAREHI_LIB_DIR");
    println!("cargo:rerun-if-env-changed=PKG_CONFIG_PATH");
    let folder = env::var("FUMAREHI_LIB_DIR").ok().or_else(installed);
    let folder = folder.expect("libfumarehi.a: set FUMAREHI_LIB_DIR to its folder, or PKG_CONFIG_PATH to that of fumarehi.pc");
    println!("cargo:rustc-link-search=native={folder}");
    println!("cargo:rustc-link-lib=static=fumarehi");
}
