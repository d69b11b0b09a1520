//! Compiles `expert/expert.c` with `cc` where the processor is an x86-64; elsewhere, or without a
//! compiler, the crate is built without it.

use std::env;
use std::path::PathBuf;
use std::process::Command;

/// Runs a command, which must succeed, and gives what it prints.
fn run(command: &mut Command) -> String {
    let output = command.output();
    let output = output.unwrap_or_else(|error| panic!("{command:?}: {error}"));
    let errors = String::from_utf8_lossy(&output.stderr);
    assert!(output.status.success(), "{command:?}: {errors}");
    String::from_utf8_lossy(&output.stdout).trim().to_string()
}

/// Whether there is a C compiler.
fn compiler() -> bool {
    Command::new("cc").arg("--version").output().is_ok()
}

fn main() {
    println!("cargo::rerun-if-changed=expert");
    println!("cargo::rustc-check-cfg=cfg(expert)");
    let target = env::var("TARGET").expect("cargo sets TARGET");
    if !target.starts_with("x86_64-unknown-linux") || !compiler() {
        println!("cargo::warning=expert/expert.c is left out: no cc for it on this machine");
        return;
    }
    let folder = PathBuf::from(env::var_os("OUT_DIR").expect("cargo sets OUT_DIR"));
    let (object, archive) = (folder.join("expert.o"), folder.join("libexpert.a"));
    let flags = ["-std=gnu11", "-O3", "-fPIC", "-Wall", "-Wextra", "-Werror"];
    run(Command::new("cc")
        .args(flags)
        .args(["-c", "expert/expert.c", "-o"])
        .arg(&object));
    let archiver = run(Command::new("cc").arg("-print-prog-name=ar"));
    run(Command::new(archiver).arg("crs").args([&archive, &object]));
    println!("cargo::rustc-cfg=expert");
    println!("cargo::rustc-link-search=native={}", folder.display());
    println!("cargo::rustc-link-lib=static=expert");
}
