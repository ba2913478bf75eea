//! Links `libagefile.a`: from the folder that the variable `AGEFILE_LIB_DIR` names, else from the one
//! that pkg-config knows, else from `/usr/local/lib`.

use std::env;
use std::path::Path;
use std::process::{exit, Command};

fn by_pkg_config() -> Option<String> {
    let found = Command::new("pkg-config").args(["--variable=libdir", "agefile"]).output().ok()?;
    let folder = String::from_utf8(found.stdout).ok()?.trim().to_owned();
    (found.status.success() && !folder.is_empty()).then_some(folder)
}

fn refuse(reason: &str) -> ! {
    eprintln!("agefile: {reason}");
    exit(1)
}

fn main() {
    for name in ["AGEFILE_LIB_DIR", "PKG_CONFIG_PATH", "PKG_CONFIG_LIBDIR"] {
        println!("cargo:rerun-if-env-changed={name}");
    }
    let target = |part: &str| env::var(format!("CARGO_CFG_TARGET_{part}")).unwrap_or_default();
    if (target("OS"), target("ARCH"), target("ENV")) != ("linux".into(), "x86_64".into(), "gnu".into()) {
        refuse("the library is for Linux on x86-64 with the GNU C library alone");
    }
    let folder = env::var("AGEFILE_LIB_DIR").ok().or_else(by_pkg_config).unwrap_or("/usr/local/lib".into());
    println!("cargo:rerun-if-changed={folder}/libagefile.a");
    if !Path::new(&folder).join("libagefile.a").is_file() {
        refuse(&format!(
            "{folder} has no libagefile.a: install the package libagefile-dev, or set AGEFILE_LIB_DIR to its folder"
        ));
    }
    println!("cargo:rustc-link-search=native={folder}");
    println!("cargo:rustc-link-lib=static=agefile");
}
