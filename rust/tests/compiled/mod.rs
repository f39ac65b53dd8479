//! Programs in C and C++, compiled over the library. A warning is an error.
#![allow(dead_code)]

use std::path::{Path, PathBuf};
use std::process::Command;

/// The folder above the package.
pub fn repository() -> PathBuf {
    let package = Path::new(env!("CARGO_MANIFEST_DIR"));
    package.parent().unwrap().to_path_buf()
}

/// A language, its compiler by the variable that may name it, and the standard to hold to.
#[derive(Clone, Copy)]
pub struct Language {
    pub name: &'static str,
    variable: &'static str,
    usual: &'static str,
    standard: &'static str,
}

pub const C: Language = Language {
    name: "c",
    variable: "CC",
    usual: "cc",
    standard: "-std=c99",
};

pub const CPP: Language = Language {
    name: "c++",
    variable: "CXX",
    usual: "c++",
    standard: "-std=c++11",
};

impl Language {
    /// A command that begins with the compiler.
    fn compiler(&self) -> Command {
        Command::new(std::env::var(self.variable).unwrap_or(self.usual.into()))
    }

    /// Whether the compiler can be run.
    pub fn is_there(&self) -> bool {
        self.compiler().arg("--version").output().is_ok()
    }
}

/// The program that a source of the repository makes, by its path in it. Tests run at once, so each names its own.
pub fn compiled(language: Language, source: &str, name: &str) -> PathBuf {
    let program = Path::new(env!("CARGO_TARGET_TMPDIR")).join(format!("{name}.{}", language.name));
    let built = language
        .compiler()
        .args([language.standard, "-Wall", "-Wextra", "-pedantic"])
        .args(["-Werror", "-O1", "-I"])
        .arg(repository().join("include"))
        .args(["-x", language.name])
        .arg(repository().join(source))
        .args(["-x", "none", env!("HEJSLOPI_LIB"), "-o"])
        .arg(&program)
        .output()
        .unwrap_or_else(|e| panic!("the compiler of {}: {e}", language.name));
    assert!(
        built.status.success(),
        "{source}: {}",
        String::from_utf8_lossy(&built.stderr)
    );
    program
}
