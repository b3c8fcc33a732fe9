//! Links `libversions.a`, from the folder that `VERSIONS_LIB_DIR` names, or else from the one that
//! pkg-config names.

use std::env;
use std::path::Path;
use std::process::{exit, Command};

/// The environment variables on which the answer depends.
const VARIABLES: [&str; 4] = [
    "DOCS_RS",
    "VERSIONS_LIB_DIR",
    "PKG_CONFIG_PATH",
    "PKG_CONFIG_LIBDIR",
];

fn main() {
    println!("cargo:rerun-if-changed=build.rs");
    for variable in VARIABLES {
        println!("cargo:rerun-if-env-changed={variable}");
    }
    // docs.rs builds the documentation alone, and has no library.
    if env::var_os("DOCS_RS").is_some() {
        return;
    }
    match folder() {
        Ok(folder) => {
            println!("cargo:rustc-link-search=native={folder}");
            println!("cargo:rustc-link-lib=static=versions");
            println!("cargo:rerun-if-changed={folder}/libversions.a");
        }
        Err(sentence) => {
            eprintln!("proved-versions: {sentence}");
            exit(1);
        }
    }
}

/// The folder that has `libversions.a`, or a sentence that says what to do.
fn folder() -> Result<String, String> {
    let target = |part| env::var(format!("CARGO_CFG_TARGET_{part}")).unwrap_or_default();
    let is_processor = ["x86_64", "aarch64"].contains(&target("ARCH").as_str());
    if !is_processor || target("OS") != "linux" {
        let sentence = "build for Linux on x86-64 or 64-bit ARM: the library runs nowhere else";
        return Err(sentence.to_string());
    }
    match env::var_os("VERSIONS_LIB_DIR") {
        Some(named) if !named.is_empty() => checked(named.into_string().map_err(|named| {
            format!("set VERSIONS_LIB_DIR to a folder whose name is UTF-8, unlike {named:?}")
        })?),
        _ => checked(by_pkg_config().ok_or(
            "set VERSIONS_LIB_DIR to the folder of libversions.a that `c/build FOLDER` fills, \
             or PKG_CONFIG_PATH to that of versions.pc",
        )?),
    }
}

/// The folder, where it can be handed to cargo and has the library.
fn checked(folder: String) -> Result<String, String> {
    if !Path::new(&folder).is_absolute() || folder.contains('\n') {
        return Err(format!(
            "name the folder of libversions.a by an absolute path, unlike {folder:?}"
        ));
    }
    if !Path::new(&folder).join("libversions.a").is_file() {
        return Err(format!(
            "build the library into {folder} by `c/build {folder}`: it has no libversions.a"
        ));
    }
    Ok(folder)
}

/// The folder of libraries that `pkg-config` names, where it knows `versions`.
fn by_pkg_config() -> Option<String> {
    let said = Command::new("pkg-config")
        .args(["--variable=libdir", "versions"])
        .output()
        .ok()?;
    let folder = String::from_utf8(said.stdout).ok()?;
    // pkg-config writes a backslash before each space.
    let folder = folder.trim_end_matches('\n').replace("\\ ", " ");
    (said.status.success() && !folder.is_empty()).then_some(folder)
}
