//! Takes over what the crate `vmig-sys` found. `VMIG_HEADER` is the header of the library, which the tests compare with the errors of this crate.
//! Where there is no archive the crate is built with `vmig_absent`: functions of Rust stand for its calls, so that all but a program is made without
//! it.

use std::path::Path;

/// Writes a function for each call that this file declares.
fn stand_for_calls(declarations: &str) {
    println!("cargo:rustc-cfg=vmig_absent");
    println!("cargo:rerun-if-changed={declarations}");
    let text = std::fs::read_to_string(declarations).expect("the declarations of vmig-sys");
    let calls = text.lines().filter_map(|line| line.trim_start().strip_prefix("pub fn vmig_")?.split_once('('));
    let stubs: String = calls.map(|(name, _)| stub_of(name)).collect();
    let out = std::env::var_os("OUT_DIR").expect("cargo names a folder");
    std::fs::write(Path::new(&out).join("absent.rs"), stubs).expect("cargo's folder can be written");
}

/// It takes no parameters and returns never, so it stands for any call of C.
fn stub_of(name: &str) -> String {
    format!("#[unsafe(no_mangle)]\nextern \"C\" fn vmig_{name}() -> u32 {{\n    skipped(\"vmig_{name}\")\n}}\n\n")
}

/// What the script of `vmig-sys` told.
fn told(variable: &str) -> Option<String> {
    std::env::var(format!("DEP_VMIG_{variable}")).ok()
}

fn main() {
    println!("cargo:rustc-check-cfg=cfg(vmig_absent)");
    println!("cargo:rerun-if-changed=build.rs");
    println!("cargo:rustc-env=VMIG_HEADER={}", told("HEADER").expect("vmig-sys names the header"));
    let declarations = told("DECLARATIONS").expect("vmig-sys names its declarations");
    if told("ABSENT").is_some() {
        stand_for_calls(&declarations);
    }
}
