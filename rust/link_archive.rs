//! For build scripts: links the archive of a proved library, `target/staticlib/libNAME.a` of the
//! repository.
//!
//! `.ci/archive NAME` writes it. It is not run from here: it proves the library, which takes
//! minutes that cargo would show nothing of, and builds at the same time would write to one folder.
//! Without it the crate is built all the same, so that a program can say in its own words what is
//! missing; `cfg(archive = "NAME")` tells, and cargo warns.

use std::env;
use std::fs;
use std::path::{Path, PathBuf};
use std::time::SystemTime;

/// Links the archive of the library with this name to the crate whose build script calls this.
pub fn link(name: &str) {
    let here = PathBuf::from(env::var_os("CARGO_MANIFEST_DIR").expect("cargo sets it"));
    let repository = here.join("../..");
    let folder = repository.join("target/staticlib");
    let archive = folder.join(format!("lib{name}.a"));
    println!("cargo:rerun-if-changed={}", archive.display());
    println!("cargo:rustc-check-cfg=cfg(archive, values(\"{name}\"))");
    if !archive.is_file() {
        println!("cargo:warning=the proved library is not there: run `.ci/archive {name}`");
        return;
    }
    println!("cargo:rustc-cfg=archive=\"{name}\"");
    let sources = sources(&repository.join("crates"));
    for folder in &sources {
        println!("cargo:rerun-if-changed={}", folder.display());
    }
    if is_older(&archive, &sources) {
        println!(
            "cargo:warning=a file of crates/ is newer than the archive: run `.ci/archive {name}`"
        );
    }
    println!("cargo:rustc-link-search=native={}", folder.display());
    println!("cargo:rustc-link-lib=static={name}");
}

/// An archive older than a source file may be of other code. It is a warning and no error, since a
/// checkout gives files a new time without changing them.
fn is_older(archive: &Path, sources: &[PathBuf]) -> bool {
    let made = fs::metadata(archive).and_then(|data| data.modified());
    made.is_ok_and(|made| sources.iter().any(|folder| newest(folder) > made))
}

/// The folders with the code of the crates. Beside them stands what `rt` makes, which has copies of
/// it and changes with each check.
fn sources(crates: &Path) -> Vec<PathBuf> {
    let entries = fs::read_dir(crates).into_iter().flatten().flatten();
    entries.map(|entry| entry.path().join("src")).collect()
}

/// The time of the last change of a Rattle file in a folder.
fn newest(folder: &Path) -> SystemTime {
    let entries = fs::read_dir(folder).into_iter().flatten().flatten();
    let times = entries.map(|entry| entry.path()).filter_map(|path| {
        if path.is_dir() {
            Some(newest(&path))
        } else if path.extension().is_some_and(|extension| extension == "rt") {
            fs::metadata(path).and_then(|data| data.modified()).ok()
        } else {
            None
        }
    });
    times.max().unwrap_or(SystemTime::UNIX_EPOCH)
}
