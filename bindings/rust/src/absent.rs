//! What stands for the library where it is not there, so that the tests of this crate, clippy and the documents need no archive: a call of it ends
//! the test, which says so, and a program of another crate is not built.

use std::io::Write;

include!(concat!(env!("OUT_DIR"), "/absent.rs"));

/// Ends a test or an example of this crate with success.
fn skipped(call: &str) -> u32 {
    const {
        assert!(option_env!("CARGO_PRIMARY_PACKAGE").is_some(), "libvmig.a is not found: install it, and set VMIG_LIB or PKG_CONFIG_PATH");
    }
    let is_own = std::env::var_os("CARGO_MANIFEST_DIR").is_some_and(|folder| folder == env!("CARGO_MANIFEST_DIR"));
    // Not by a macro, whose output a test keeps to itself.
    let what = if is_own { "skipped" } else { "ended" };
    let _ = writeln!(std::io::stderr(), "vmig: {what}: {call} needs libvmig.a, which was not found");
    std::process::exit(i32::from(!is_own))
}
