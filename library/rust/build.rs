//! Finds libmisere: in the folder that MISERE_LIB_DIR names, or else in the one that `pkg-config` tells.

use std::env;
use std::path::Path;
use std::process::{Command, exit};

const NOT_FOUND: &str = "libmisere was not found. Set MISERE_LIB_DIR to the folder of libmisere.a, such as library/ after `make -C library`,
or PKG_CONFIG_PATH to the folder of misere.pc, which is PREFIX/lib/pkgconfig after `make -C library install PREFIX=..`.";

/// The folder that `pkg-config` tells, if there is the command and it knows misere.
fn told_by_pkg_config() -> Option<String> {
    let command = env::var_os("PKG_CONFIG").unwrap_or_else(|| "pkg-config".into());
    let told = Command::new(command).args(["--variable=libdir", "misere"]).output().ok()?;
    let folder = String::from_utf8(told.stdout).ok()?.trim().to_string();
    (told.status.success() && !folder.is_empty()).then_some(folder)
}

fn main() {
    for name in ["MISERE_LIB_DIR", "PKG_CONFIG", "PKG_CONFIG_PATH"] {
        println!("cargo:rerun-if-env-changed={name}");
    }
    let Some(folder) = env::var("MISERE_LIB_DIR").ok().or_else(told_by_pkg_config) else {
        eprintln!("{NOT_FOUND}");
        exit(1);
    };
    let kind = if Path::new(&folder).join("libmisere.a").exists() { "static" } else { "dylib" };
    println!("cargo:rerun-if-changed={folder}");
    println!("cargo:rustc-link-search=native={folder}");
    println!("cargo:rustc-link-lib={kind}=misere");
}
