//! Links libvmig.a as `install` leaves it: from the folder that `VMIG_LIB` names, or that pkg-config knows. Crates over this one are told by cargo:
//! `DEP_VMIG_HEADER` is the header beside it, or in the repository, with which tests compare declarations; `DEP_VMIG_DECLARATIONS` is the file that
//! has them; and `DEP_VMIG_ABSENT` is there where no archive was found, and says why.

use std::path::{Path, PathBuf};
use std::process::Command;

/// What pkg-config says of a variable of vmig.pc.
fn told(variable: &str) -> Option<PathBuf> {
    let told = Command::new("pkg-config").args([&format!("--variable={variable}"), "vmig"]).output().ok()?;
    let folder = String::from_utf8(told.stdout).ok()?.trim().to_owned();
    (told.status.success() && !folder.is_empty()).then(|| folder.into())
}

/// The folder of the archive and that of its headers. A name without / in front is taken from the folder of the crate `vmig`, which is the one above.
fn folders() -> Option<(PathBuf, PathBuf)> {
    if let Some(folder) = std::env::var_os("VMIG_LIB") {
        let folder = Path::new(env!("CARGO_MANIFEST_DIR")).join("..").join(folder);
        let headers = folder.join("../include");
        return Some((folder, headers));
    }
    told("libdir").zip(told("includedir"))
}

/// Where the archive is, or why there is none.
fn archive_in(found: Option<&Path>) -> Result<PathBuf, String> {
    let folder = found.ok_or("libvmig.a is not found")?;
    let archive = folder.join("libvmig.a");
    let hint = "which VMIG_LIB or pkg-config names";
    archive.exists().then_some(archive).ok_or_else(|| format!("libvmig.a is not found in {}, {hint}", folder.display()))
}

fn main() {
    for name in ["VMIG_LIB", "PKG_CONFIG_PATH", "PKG_CONFIG_LIBDIR"] {
        println!("cargo:rerun-if-env-changed={name}");
    }
    println!("cargo:rustc-check-cfg=cfg(vmig_absent)");
    let own = Path::new(env!("CARGO_MANIFEST_DIR"));
    let found = folders();
    let beside = found.as_ref().map(|(_, headers)| headers.join("vmig.h")).filter(|header| header.exists());
    println!("cargo:header={}", beside.unwrap_or_else(|| own.join("../../include/vmig.h")).display());
    println!("cargo:declarations={}", own.join("src/lib.rs").display());
    match archive_in(found.as_ref().map(|(folder, _)| folder.as_path())) {
        Ok(archive) => {
            println!("cargo:rustc-link-lib=static=vmig");
            println!("cargo:rustc-link-search=native={}", archive.parent().unwrap_or(own).display());
            println!("cargo:rerun-if-changed={}", archive.display());
        }
        Err(why) => {
            println!("cargo:warning={why}: no program is linked, and the tests that need it are skipped");
            println!("cargo:rustc-cfg=vmig_absent");
            println!("cargo:absent={why}");
        }
    }
}
