//! Finds the archive `liburtemval.a`, or has it made, and tells Cargo to link it.
//!
//! It is looked for in the folder that the variable `URTEMVAL_LIB_DIR` names. Without that variable the project's own
//! `build-library` is asked, which makes the archive with `rt` where it is missing or old.

use std::env;
use std::path::{Path, PathBuf};
use std::process::{exit, Command};

/// Ends the build with a message.
fn fail(message: &str) -> ! {
    eprintln!("urtemval: {message}");
    exit(1)
}

/// The archive holds code for x86-64 Linux alone.
fn check_target() {
    let setting = |name: &str| env::var(name).unwrap_or_default();
    let fits = setting("CARGO_CFG_TARGET_ARCH") == "x86_64"
        && setting("CARGO_CFG_TARGET_OS") == "linux"
        && setting("CARGO_CFG_TARGET_POINTER_WIDTH") == "64";
    if !fits {
        fail(&format!(
            "the archive liburtemval.a holds code for x86-64 Linux, and cannot be linked for {}. Build with \
             `--target x86_64-unknown-linux-gnu`; on another machine that takes this target's standard library, a \
             cross linker (Debian's gcc-x86-64-linux-gnu) and an emulator (qemu-user) to run the result",
            setting("TARGET")
        ));
    }
}

/// The folder that the environment names.
fn named() -> Option<PathBuf> {
    println!("cargo:rerun-if-env-changed=URTEMVAL_LIB_DIR");
    let folder = PathBuf::from(env::var_os("URTEMVAL_LIB_DIR")?);
    if !folder.join("liburtemval.a").is_file() {
        fail(&format!(
            "URTEMVAL_LIB_DIR names {}, which has no file liburtemval.a",
            folder.display()
        ));
    }
    Some(folder)
}

/// The folder in which the project makes it.
fn made(root: &Path) -> PathBuf {
    let script = root.join("build-library");
    if !script.is_file() {
        fail(
            "this crate is not in its project's folder, and so cannot make the archive liburtemval.a: name the folder \
             that has one by the variable URTEMVAL_LIB_DIR",
        );
    }
    match Command::new(&script).status() {
        Ok(status) if status.success() => {}
        Ok(_) => fail("build-library did not make the archive: see above"),
        Err(error) => fail(&format!("{} cannot be run: {error}", script.display())),
    }
    println!("cargo:rerun-if-changed={}", script.display());
    println!("cargo:rerun-if-changed={}", root.join("crates").display());
    root.join("target/staticlib")
}

fn main() {
    check_target();
    let root =
        PathBuf::from(env::var_os("CARGO_MANIFEST_DIR").expect("Cargo sets it")).join("../..");
    let folder = named().unwrap_or_else(|| made(&root));
    println!(
        "cargo:rerun-if-changed={}",
        folder.join("liburtemval.a").display()
    );
    println!("cargo:rerun-if-changed=build.rs");
    println!("cargo:rustc-link-search=native={}", folder.display());
    println!("cargo:rustc-link-lib=static=urtemval");
}
