//! Says where liblcrvm is: in the folder LCRVM_LIBDIR, or where pkg-config has it, or where the linker looks by itself.
use std::{env, process::Command};

fn main() {
    println!("cargo:rerun-if-env-changed=LCRVM_LIBDIR");
    println!("cargo:rerun-if-env-changed=PKG_CONFIG_PATH");
    let asked = || Command::new("pkg-config").args(["--variable=libdir", "lcrvm"]).output().ok();
    let folder = env::var("LCRVM_LIBDIR").ok().or_else(|| String::from_utf8(asked()?.stdout).ok());
    if let Some(folder) = folder.filter(|folder| !folder.trim().is_empty()) {
        println!("cargo:rustc-link-search=native={}", folder.trim());
    }
}
