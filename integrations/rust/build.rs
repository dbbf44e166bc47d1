//! Finds the library for C: in the folder that `VIZHONIKU_PREFIX` names, or by pkg-config. The static library is linked
//! where it is there, so that a program needs nothing beside it; else the shared one.

use std::env;
use std::path::PathBuf;
use std::process::{exit, Command};

const LEAST: &str = "0.2.0";

fn folder() -> Result<PathBuf, String> {
    if let Some(prefix) = env::var_os("VIZHONIKU_PREFIX") {
        return Ok(PathBuf::from(prefix).join("lib"));
    }
    let tool = env::var_os("PKG_CONFIG").unwrap_or_else(|| "pkg-config".into());
    let least = format!("vizhoniku >= {LEAST}");
    let ran = Command::new(&tool).args(["--print-errors", "--exists", &least]).output();
    let ran = ran.map_err(|error| format!("pkg-config doesn't start: {error}"))?;
    if !ran.status.success() {
        return Err(String::from_utf8_lossy(&ran.stderr).trim().to_string());
    }
    let ran = Command::new(&tool).args(["--variable=libdir", "vizhoniku"]).output();
    let ran = ran.map_err(|error| format!("pkg-config doesn't start: {error}"))?;
    Ok(PathBuf::from(String::from_utf8_lossy(&ran.stdout).trim()))
}

fn main() {
    for name in ["VIZHONIKU_PREFIX", "PKG_CONFIG", "PKG_CONFIG_PATH", "PKG_CONFIG_LIBDIR"] {
        println!("cargo:rerun-if-env-changed={name}");
    }
    let folder = folder().unwrap_or_else(|why| {
        eprintln!("the library libvizhoniku isn't found: {why}");
        eprintln!("install it, and name its folder by PKG_CONFIG_PATH or VIZHONIKU_PREFIX");
        exit(1);
    });
    let archive = folder.join("libvizhoniku.a");
    let is_static = archive.exists();
    if !is_static && !folder.join("libvizhoniku.so").exists() {
        eprintln!("{} has no libvizhoniku.a and no libvizhoniku.so", folder.display());
        exit(1);
    }
    println!("cargo:rerun-if-changed={}", archive.display());
    println!("cargo:rustc-link-search=native={}", folder.display());
    println!("cargo:rustc-link-lib={}=vizhoniku", if is_static { "static" } else { "dylib" });
}
