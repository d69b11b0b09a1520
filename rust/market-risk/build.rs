//! Finds the proved static library and tells the linker of it.

use std::env;
use std::path::PathBuf;

/// The folder of the archive: `MARKET_RISK_LIB_DIR`, else the repository's own.
fn folder() -> PathBuf {
    match env::var_os("MARKET_RISK_LIB_DIR") {
        Some(folder) => PathBuf::from(folder),
        None => {
            let here = env::var_os("CARGO_MANIFEST_DIR").expect("cargo sets CARGO_MANIFEST_DIR");
            PathBuf::from(here).join("../../target/staticlib")
        }
    }
}

fn main() {
    let folder = folder();
    let archive = folder.join("libmarket_risk.a");
    println!("cargo::rerun-if-env-changed=MARKET_RISK_LIB_DIR");
    println!("cargo::rerun-if-changed={}", archive.display());
    if !archive.is_file() {
        println!(
            "cargo::error=the proved library {} is missing: run `scripts/library` at the \
             repository's top, or set MARKET_RISK_LIB_DIR to the folder that has it",
            archive.display()
        );
        return;
    }
    println!("cargo::rustc-link-search=native={}", folder.display());
    println!("cargo::rustc-link-lib=static=market_risk");
}
