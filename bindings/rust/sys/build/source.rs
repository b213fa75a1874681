//! Compiles the library from its text with a stock clang. The object is the same as the one that
//! `bindings/source/build` makes.

use crate::{refuse, sha256};
use std::path::{Path, PathBuf};
use std::process::{Command, Output};

/// The compilers that are tried if CLANG names none. The first one makes the object whose digest a release has.
const CLANGS: [&str; 9] = ["clang-16", "clang-17", "clang-18", "clang-19", "clang-20", "clang-21", "clang-22", "clang", "clang-15"];

/// The oldest version of clang that can read the text.
const OLDEST_CLANG: u32 = 15;

const INSTALL: &str = "install clang-16, or set CLANG to the name of a clang from version 15 on";

/// A clang that reads the text.
struct Clang {
    name: String,
    /// The first line of what `--version` prints.
    version: String,
}

/// Runs a command. If it fails, the error is what it printed on standard error.
fn run(command: &mut Command) -> Result<Output, String> {
    match command.output() {
        Ok(output) if output.status.success() => Ok(output),
        Ok(output) => Err(String::from_utf8_lossy(&output.stderr).trim().to_owned()),
        Err(why) => Err(why.to_string()),
    }
}

fn first_line(text: &[u8]) -> String {
    String::from_utf8_lossy(text).lines().next().unwrap_or_default().trim().to_owned()
}

/// Returns the version of a clang: its number, and the line that it prints. If the clang can't be run, the error has
/// the reason.
fn version_of(name: &str) -> Result<(u32, String), String> {
    let number = run(Command::new(name).arg("-dumpversion"))?;
    let line = run(Command::new(name).arg("--version"))?;
    let number = first_line(&number.stdout).split('.').next().and_then(|word| word.parse().ok()).unwrap_or(0);
    Ok((number, first_line(&line.stdout)))
}

/// Returns the clang that CLANG names, or the first one of the list that exists and isn't too old.
fn find_clang() -> Clang {
    println!("cargo:rerun-if-env-changed=CLANG");
    if let Ok(name) = std::env::var("CLANG") {
        return match version_of(&name) {
            Ok((number, version)) if number >= OLDEST_CLANG => Clang { name, version },
            Ok((number, _)) => {
                refuse(&format!("{name}, which CLANG names, is version {number}, and the text needs {OLDEST_CLANG} or later: {INSTALL}"))
            }
            Err(why) => refuse(&format!("{name}, which CLANG names, can't be run: {why}; {INSTALL}")),
        };
    }
    let mut old_version = None;
    for name in CLANGS {
        match version_of(name) {
            Ok((number, version)) if number >= OLDEST_CLANG => return Clang { name: name.to_owned(), version },
            Ok((number, _)) => old_version = Some(number),
            Err(_) => {}
        }
    }
    match old_version {
        Some(number) => refuse(&format!("clang is version {number}, and the text needs {OLDEST_CLANG} or later: {INSTALL}")),
        None => refuse(&format!("no clang is on PATH: {INSTALL}")),
    }
}

/// Returns the arguments for this clang. They are the flags with which a release's own library was compiled. A flag of
/// LLVM is a pair of arguments, and is left out if this clang can't compile a function with it.
fn clang_arguments(clang: &Clang, flags: &str, machine: &str, out: &Path) -> Vec<String> {
    let probe = out.join("one.ll");
    write(&probe, b"define i32 @one() { ret i32 1 }\n");
    let target_flag = format!("--target={machine}-unknown-linux-gnu");
    let mut arguments = vec![target_flag.clone()];
    let mut lines = flags.lines();
    while let Some(flag) = lines.next() {
        if flag != "-mllvm" {
            arguments.push(flag.to_owned());
        } else if let Some(pass) = lines.next() {
            let mut command = Command::new(&clang.name);
            command.args([&target_flag, "-mllvm", pass, "-c", "-x", "ir"]).arg(&probe).arg("-o").arg(out.join("one.o"));
            if run(&mut command).is_ok() {
                arguments.extend([flag.to_owned(), pass.to_owned()]);
            }
        }
    }
    arguments.push("-fPIC".to_owned());
    arguments
}

fn read(path: &Path) -> Vec<u8> {
    std::fs::read(path).unwrap_or_else(|why| refuse(&format!("{} can't be read: {why}", path.display())))
}

fn write(path: &Path, bytes: &[u8]) {
    std::fs::write(path, bytes).unwrap_or_else(|why| refuse(&format!("{} can't be written: {why}", path.display())));
}

/// Returns the digest with this name from the file of digests. A clone may not have the file.
fn find_digest<'a>(digests: &'a str, name: &str) -> Option<&'a str> {
    digests.lines().find_map(|line| line.strip_prefix(name)?.strip_prefix(' '))
}

/// Compiles the text of a folder for a processor. Returns the path of the library.
pub fn compile_library(folder: &Path, machine: &str) -> PathBuf {
    let (text, flags) = (folder.join("serf_agent_c.ll"), folder.join("flags"));
    let digests = std::fs::read_to_string(folder.join("digests")).unwrap_or_default();
    println!("cargo:rerun-if-changed={}", folder.display());
    if let Some(expected) = find_digest(&digests, "text") {
        let actual = sha256::hex_digest(&read(&text));
        if actual != expected {
            refuse(&format!(
                "{} isn't the release's: its SHA-256 is {actual}, and digests next to it has {expected}; get the crate again",
                text.display()
            ));
        }
    }
    let out = PathBuf::from(std::env::var_os("OUT_DIR").unwrap_or_default());
    let (object, library) = (out.join("serf_agent_c.o"), out.join("libserf_agent_c.a"));
    let clang = find_clang();
    let mut command = Command::new(&clang.name);
    command.args(clang_arguments(&clang, &String::from_utf8_lossy(&read(&flags)), machine, &out));
    // (in the text's folder, because an object may contain the path of its text)
    command.current_dir(folder).args(["-c", "-x", "ir", "serf_agent_c.ll", "-o"]).arg(&object);
    if let Err(why) = run(&mut command) {
        refuse(&format!("{} can't compile {}: {why}", clang.name, text.display()));
    }
    if let (Some(compiler), Some(expected)) = (find_digest(&digests, "compiler"), find_digest(&digests, "object")) {
        let actual = sha256::hex_digest(&read(&object));
        if clang.version == compiler && actual != expected {
            refuse(&format!("{} made an object with the SHA-256 {actual}, and the same compiler made {expected} for the release: install the compiler again, or set CLANG to another one", clang.name));
        }
    }
    println!("cargo:rerun-if-env-changed=AR");
    let archiver = std::env::var("AR").unwrap_or_else(|_| "ar".to_owned());
    let _ = std::fs::remove_file(&library);
    if let Err(why) = run(Command::new(&archiver).arg("rcsD").arg(&library).arg(&object)) {
        refuse(&format!("{archiver} can't make an archive: {why}; install binutils, or set AR to another one"));
    }
    library
}
