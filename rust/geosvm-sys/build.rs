//! Finds the library: by `pkg-config`, or in the folder that `GEOSVM_LIB_DIR` names.
use std::env;
use std::path::{Path, PathBuf};
use std::process::{exit, Command};

fn main() {
    for name in ["GEOSVM_LIB_DIR", "PKG_CONFIG", "PKG_CONFIG_PATH", "PKG_CONFIG_LIBDIR", "PKG_CONFIG_SYSROOT_DIR"] {
        println!("cargo::rerun-if-env-changed={name}");
    }
    println!("cargo::rerun-if-changed=build.rs");
    let is_static = env::var_os("CARGO_FEATURE_STATIC").is_some();
    let found = match env::var_os("GEOSVM_LIB_DIR") {
        Some(folder) => Ok(PathBuf::from(folder)),
        None => ask_pkg_config(),
    };
    match found {
        Ok(folder) => link(&folder, is_static),
        Err(why) => {
            eprintln!("geosvm-sys: {why}");
            exit(1);
        }
    }
}

/// The folder of the library, as `pkg-config` knows it. Before 1.0 another 0.N may have sessions of another size.
fn ask_pkg_config() -> Result<PathBuf, String> {
    let number = |part: &str| part.parse::<u32>().unwrap_or_default();
    let next = match (number(env!("CARGO_PKG_VERSION_MAJOR")), number(env!("CARGO_PKG_VERSION_MINOR"))) {
        (0, minor) => format!("geosvm < 0.{}", minor + 1),
        (major, _) => format!("geosvm < {}", major + 1),
    };
    pkg_config(&[concat!("geosvm >= ", env!("CARGO_PKG_VERSION")), &next])?;
    pkg_config(&["--variable=libdir", "geosvm"]).map(PathBuf::from)
}

/// What the program `pkg-config` writes where it is asked so.
fn pkg_config(words: &[&str]) -> Result<String, String> {
    let program = env::var_os("PKG_CONFIG").unwrap_or_else(|| "pkg-config".into());
    let ended = Command::new(&program).arg("--print-errors").args(words).output();
    let output = ended.map_err(|error| format!("{} can't be run: {error}", program.to_string_lossy()))?;
    if output.status.success() {
        return Ok(String::from_utf8_lossy(&output.stdout).trim().to_string());
    }
    let told = String::from_utf8_lossy(&output.stderr);
    Err(format!(
        "{}\nThe library for C isn't found, of this version. `sh install.sh PREFIX` of geosvm installs it; then set \
         PKG_CONFIG_PATH=PREFIX/lib/pkgconfig, or GEOSVM_LIB_DIR to the folder that it lies in.",
        told.trim()
    ))
}

/// Tells cargo what to link. Other crates get the folder as `DEP_GEOSVM_LIB_DIR`.
fn link(folder: &Path, is_static: bool) {
    let kind = if is_static { "static" } else { "dylib" };
    println!("cargo::rustc-link-search=native={}", folder.display());
    println!("cargo::rustc-link-lib={kind}=geosvm");
    println!("cargo::metadata=lib_dir={}", folder.display());
}
