//! Links the library. It is the one that `SERF_AGENT_LIBRARY` names, the package's, the one in a clone of the
//! repository, or the one that clang compiles from the package's text. If `SERF_AGENT_FROM_SOURCE=1` or the feature
//! `from-source` is set, the script prefers the text to the package's library.

use std::path::{Path, PathBuf};

mod sha256;
mod source;

/// The paths of the library and of its text for a processor, first in a package and then in a clone.
struct ProcessorPaths {
    machine: &'static str,
    libraries: [&'static str; 2],
    texts: [&'static str; 2],
}

const PATHS: [ProcessorPaths; 2] = [
    ProcessorPaths {
        machine: "x86_64",
        libraries: ["native/libserf_agent_c.a", "../../../crates/serf_agent_c/out/libserf_agent_c.a"],
        texts: ["source/x86_64", "../../../crates/serf_agent_c/out/x86_64"],
    },
    ProcessorPaths {
        machine: "aarch64",
        libraries: ["native/aarch64/libserf_agent_c.a", "../../../crates/serf_agent_c/out/aarch64/libserf_agent_c.a"],
        texts: ["source/aarch64", "../../../crates/serf_agent_c/out/aarch64"],
    },
];

/// Prints why the build can't continue, and ends it.
fn refuse(why: &str) -> ! {
    eprintln!("serf-agent-sys: {why}");
    std::process::exit(1)
}

/// Returns a property of the target for which Cargo builds, such as `OS` or `ARCH`.
fn target_value(name: &str) -> String {
    std::env::var(format!("CARGO_CFG_TARGET_{name}")).unwrap_or_default()
}

/// Returns the value of an environment variable, if it is set and not empty. Cargo runs the script again if the
/// variable changes.
fn path_from_env(variable: &str) -> Option<PathBuf> {
    println!("cargo:rerun-if-env-changed={variable}");
    std::env::var_os(variable).filter(|value| !value.is_empty()).map(PathBuf::from)
}

/// Returns the path of the library that the program is linked with: one that exists, or one that is compiled from its text.
fn find_library(paths: &ProcessorPaths) -> PathBuf {
    if let Some(library) = path_from_env("SERF_AGENT_LIBRARY") {
        println!("cargo:rerun-if-changed={}", library.display());
        return library;
    }
    // The script reads this variable when it runs, because a target folder may reuse a compiled script for a copy of
    // the package elsewhere.
    let package = std::env::var_os("CARGO_MANIFEST_DIR").unwrap_or_default();
    let in_package = |path: &str| Path::new(&package).join(path);
    let text = paths.texts.iter().map(|path| in_package(path)).find(|folder| folder.join("serf_agent_c.ll").exists());
    let from_source = path_from_env("SERF_AGENT_FROM_SOURCE").is_some() || std::env::var_os("CARGO_FEATURE_FROM_SOURCE").is_some();
    let library = paths.libraries.iter().map(|path| in_package(path)).find(|library| library.exists());
    match (library, text) {
        (Some(library), _) if !from_source => {
            println!("cargo:rerun-if-changed={}", library.display());
            library
        }
        (_, Some(text)) => source::compile_library(&text, paths.machine),
        (library, None) => refuse(&format!(
            "this package has {} the library's text for {}: get the crate of a release, or set SERF_AGENT_LIBRARY to libserf_agent_c.a in lib of a release's archive",
            if library.is_some() { "the library, but not" } else { "neither the static library nor" },
            paths.machine
        )),
    }
}

fn main() {
    let (system, machine) = (target_value("OS"), target_value("ARCH"));
    let library = match PATHS.iter().find(|paths| system == "linux" && paths.machine == machine) {
        Some(paths) => find_library(paths),
        None => refuse(&format!("the library is for Linux on x86-64 or aarch64, and the target is {system} on {machine}: name another one by --target, or build in a container of that kind")),
    };
    let folder = match library.parent() {
        Some(folder) if library.is_file() => folder,
        _ => refuse(&format!("there is no library at {}", library.display())),
    };
    println!("cargo:rustc-link-search=native={}", folder.display());
    println!("cargo:rustc-link-lib=static=serf_agent_c");
    // For the build scripts of crates that depend on this one (DEP_SERF_AGENT_C_LIBRARY).
    println!("cargo:library={}", library.display());
}
