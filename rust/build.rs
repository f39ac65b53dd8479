//! Links libcapi.a: from the folder that HEJSLOPI_LIB_DIR names, else as `tools/build library` proves and builds it.
//! What is linked is a copy in cargo's own folder, so nothing depends on where it came from once this has run.
use std::path::{Path, PathBuf};
use std::process::{Command, ExitCode, Output};
use std::{env, fs};

const LIBRARY: &str = "libcapi.a";

fn main() -> ExitCode {
    match linked() {
        Ok(()) => ExitCode::SUCCESS,
        Err(reason) => {
            eprintln!("hejslopi: {reason}");
            ExitCode::FAILURE
        }
    }
}

/// Copies the library and tells cargo to link the copy.
fn linked() -> Result<(), String> {
    println!("cargo:rerun-if-env-changed=HEJSLOPI_LIB_DIR");
    let package = PathBuf::from(
        env::var_os("CARGO_MANIFEST_DIR")
            .ok_or("CARGO_MANIFEST_DIR is not set: cargo runs this")?,
    );
    let named = env::var_os("HEJSLOPI_LIB_DIR").filter(|folder| !folder.is_empty());
    let library = match named {
        Some(folder) => given(&package.join(folder))?,
        None => built(package.parent().ok_or("the package stands in no folder")?)?,
    };
    let folder = env::var("OUT_DIR").map_err(|e| format!("OUT_DIR: {e}"))?;
    let copy = Path::new(&folder).join(LIBRARY);
    // read and written, not copied: a copy of a read-only file could not be replaced the next time
    let bytes =
        fs::read(&library).map_err(|e| format!("{} cannot be read: {e}", library.display()))?;
    fs::write(&copy, bytes).map_err(|e| format!("{} cannot be written: {e}", copy.display()))?;
    println!("cargo:rustc-link-search=native={folder}");
    println!("cargo:rustc-link-lib=static=capi");
    println!("cargo:rustc-env=HEJSLOPI_LIB={}", copy.display());
    Ok(())
}

/// The library of a folder, which need not be this repository's.
fn given(folder: &Path) -> Result<PathBuf, String> {
    let library = folder.join(LIBRARY);
    watch(&library);
    if !library.exists() {
        let folder = folder.display();
        return Err(format!(
            "HEJSLOPI_LIB_DIR names {folder}, and there is no {LIBRARY}"
        ));
    }
    Ok(library)
}

/// The library as `tools/build` makes it. What it is made from is watched, and nothing that is made: else this would run each time.
fn built(repository: &Path) -> Result<PathBuf, String> {
    watch(&repository.join("crates.txt"));
    let build = repository.join("tools").join("build");
    watch(&build);
    watch_sources(&repository.join("crates"))?;
    let or = format!("name the folder of {LIBRARY} in HEJSLOPI_LIB_DIR");
    let run = Command::new(&build)
        .arg("library")
        .current_dir(repository)
        .output()
        .map_err(|e| format!("{} cannot be run ({e}): {or}", build.display()))?;
    // what a shell answers where there is no such command
    if run.status.code() == Some(127) {
        let said = telling(&run);
        return Err(format!(
            "rt cannot be run ({said}): put it on the path, or {or}"
        ));
    }
    if !run.status.success() {
        return Err(format!(
            "tools/build library: {}: {}",
            run.status,
            telling(&run)
        ));
    }
    Ok(repository.join("target").join("staticlib").join(LIBRARY))
}

/// Watches what the crates are made from. Beside it a crate has what `rt` leaves there.
fn watch_sources(crates: &Path) -> Result<(), String> {
    let unread = |e| format!("{} cannot be read: {e}", crates.display());
    for entry in fs::read_dir(crates).map_err(unread)? {
        let folder = entry.map_err(unread)?.path();
        for part in ["src", "specs", "proofs"] {
            let part = folder.join(part);
            if part.is_dir() {
                watch(&part);
            }
        }
    }
    Ok(())
}

/// Has this run again once a path changes, or a file under it.
fn watch(path: &Path) {
    println!("cargo:rerun-if-changed={}", path.display());
}

/// The line that says why a run failed: the first that speaks of an error, else the last.
fn telling(run: &Output) -> String {
    let said = [&run.stderr[..], b"\n", &run.stdout].concat();
    let said = String::from_utf8_lossy(&said);
    let mut lines = said.lines().filter(|line| !line.trim().is_empty());
    let error = lines
        .clone()
        .find(|line| line.contains("error:") || line.contains("error["));
    error
        .or(lines.next_back())
        .unwrap_or("it says nothing")
        .trim()
        .to_string()
}
