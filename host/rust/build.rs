//! Links the static library where there is one for the target, and then sets the cfg `linked`.
//!
//! The archive is the one that COUPLERFINCH_ARCHIVE names, or else, for x86-64 Linux, the one that
//! `rt lib` in crates/couplerfinch wrote in this repository. Without one the crate is type-checked and
//! tested against the header, but a program over it can't be linked; a warning says so, and how to
//! make one.

use std::env;
use std::path::{Path, PathBuf};
use std::process::exit;

fn main() {
    println!("cargo:rustc-check-cfg=cfg(linked)");
    println!("cargo:rerun-if-env-changed=COUPLERFINCH_ARCHIVE");
    if let Some(archive) = named().or_else(ours) {
        println!("cargo:rerun-if-changed={}", archive.display());
        let folder = archive.parent().unwrap_or(Path::new("/"));
        println!("cargo:rustc-link-search=native={}", folder.display());
        println!("cargo:rustc-link-lib=static=couplerfinch");
        println!("cargo:rustc-cfg=linked");
    }
}

/// The archive that the environment names; where it names none that can be linked, the build ends.
fn named() -> Option<PathBuf> {
    let archive = PathBuf::from(env::var_os("COUPLERFINCH_ARCHIVE")?);
    if !archive.is_absolute() {
        refuse("is a relative path, and a build has another working folder: name the archive by an absolute one", &archive);
    }
    if !archive.is_file() {
        refuse(
            "is no file: `tools/proved archive` makes crates/couplerfinch/out/libcouplerfinch.a, and prints its path",
            &archive,
        );
    }
    if archive.file_name().is_none_or(|name| name != "libcouplerfinch.a") {
        refuse("is not called libcouplerfinch.a, as the linker wants it", &archive);
    }
    Some(archive)
}

/// Ends the build with a sentence on the archive that was named.
fn refuse(says: &str, archive: &Path) -> ! {
    eprintln!("COUPLERFINCH_ARCHIVE={} {says}", archive.display());
    exit(1)
}

/// The repository's archive, if there is one and it is for the target.
fn ours() -> Option<PathBuf> {
    let is = |name: &str, value: &str| env::var(name).is_ok_and(|set| set == value);
    let fits = is("CARGO_CFG_TARGET_ARCH", "x86_64") && is("CARGO_CFG_TARGET_OS", "linux");
    let here = env::var_os("CARGO_MANIFEST_DIR")?;
    let archive = Path::new(&here).join("../../crates/couplerfinch/out/libcouplerfinch.a");
    if fits && archive.is_file() {
        return Some(archive);
    }
    println!("cargo:rerun-if-changed={}", archive.display());
    warn(if fits {
        "there is no archive yet, so that a program over this crate will not link (undefined symbol: couplerfinch_..): \
         `tools/proved archive` in the repository makes it, or COUPLERFINCH_ARCHIVE names it by an absolute path"
    } else {
        "the archive is for x86-64 Linux, so that a program over this crate will not link for this target \
         (undefined symbol: couplerfinch_..); COUPLERFINCH_ARCHIVE may name another by an absolute path"
    });
    None
}

/// A warning that cargo shows.
fn warn(says: &str) {
    println!("cargo:warning={says}");
}
