//! Finds the archive of the proved engine and links it. The archive is x86-64
//! code: for another processor a program that holds it is made instead, to be
//! run under an emulator, unless TRACK_NATIVE says that the archive is for
//! this processor (`bench/native`).

use std::env;
use std::path::{Path, PathBuf};
use std::process::Command;

fn main() {
    println!("cargo::rerun-if-env-changed=TRACK_C_DIR");
    println!("cargo::rerun-if-env-changed=TRACK_NATIVE");
    println!("cargo::rustc-check-cfg=cfg(linked)");
    let folder = match env::var_os("TRACK_C_DIR") {
        Some(folder) => PathBuf::from(folder),
        None => cargo_path("CARGO_MANIFEST_DIR").join("../../crates/track_c/out"),
    };
    let archive = folder.join("libtrack_c.a");
    println!("cargo::rerun-if-changed={}", archive.display());
    if !archive.is_file() {
        println!(
            "cargo::error={} is missing: run `rt lib` in crates/track_c, \
             or set TRACK_C_DIR to the folder that holds it",
            archive.display()
        );
        return;
    }
    let x86_64 = env::var("CARGO_CFG_TARGET_ARCH").as_deref() == Ok("x86_64");
    if x86_64 || env::var_os("TRACK_NATIVE").is_some() {
        println!("cargo::rustc-cfg=linked");
        println!("cargo::rustc-link-search=native={}", folder.display());
        println!("cargo::rustc-link-lib=static=track_c");
    } else {
        make_harness(&archive);
    }
}

fn cargo_path(name: &str) -> PathBuf {
    PathBuf::from(env::var_os(name).expect("cargo sets it"))
}

fn make_harness(archive: &Path) {
    println!("cargo::rerun-if-changed=src/harness.c");
    let harness = cargo_path("OUT_DIR").join("track_harness");
    let made = Command::new("clang")
        .args(["--target=x86_64-linux-gnu", "-fuse-ld=lld", "-static"])
        .args(["-O2", "-ffreestanding", "-nostdlib", "-fno-stack-protector"])
        .arg("src/harness.c")
        .arg(archive)
        .arg("-o")
        .arg(&harness)
        .status();
    if made.is_ok_and(|status| status.success()) {
        println!("cargo::rustc-env=TRACK_HARNESS={}", harness.display());
    } else {
        println!("cargo::error=libtrack_c.a is x86-64 code, and clang with lld could not link it");
    }
}
