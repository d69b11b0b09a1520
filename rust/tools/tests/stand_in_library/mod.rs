//! The command over a library with faults: built a second time, over the proved archive with
//! the files of tests/stand_in before its calls.
#![allow(dead_code)]

use crate::common::{least_trade, temporary};
use std::path::Path;
use std::process::{Command, Output};
use std::sync::OnceLock;
use std::{env, fs};

/// The fifteen calls, as the C interface names them.
pub const CALLS: [&str; 15] = [
    "check",
    "part",
    "charge",
    "interest_ladder",
    "commodity_ladder",
    "small_bank",
    "join",
    "net",
    "offset",
    "net_and_offset",
    "shortest",
    "dearest",
    "options",
    "least_trade",
    "table",
];

/// Between the name of a call and the entries that differ.
pub const BY: &str = " by the proved library and by the second calculation: ";

/// Where this crate lies.
pub const HERE: &str = env!("CARGO_MANIFEST_DIR");

/// Runs a program of the build, which must succeed.
fn build(command: &mut Command) {
    let output = command.output().unwrap();
    let errors = String::from_utf8_lossy(&output.stderr);
    assert!(output.status.success(), "{command:?}: {errors}");
}

/// The files of the stand-in.
const SOURCES: [&str; 9] = [
    "stand_in",
    "small_bank",
    "net",
    "offset",
    "net_and_offset",
    "shortest",
    "dearest",
    "options",
    "least_trade",
];

/// Compiles a file of the stand-in into a folder and gives the object.
fn object(folder: &str, name: &str) -> String {
    let (object, source) = (
        format!("{folder}/{name}.o"),
        format!("{HERE}/tests/stand_in/{name}.c"),
    );
    let include = format!("-I{HERE}/../../include");
    // Compilers warn where the header's results have other lengths than the stand-in's.
    let strict = ["-c", "-O1", "-Wall", "-Wextra", "-Werror"];
    let files = [&include, "-o", &object, &source];
    build(Command::new("cc").args(strict).args(files));
    object
}

/// The archive with the stand-in before its calls. Its folder is given.
fn archive() -> String {
    let proved = match env::var("MARKET_RISK_LIB_DIR") {
        Ok(folder) => folder,
        Err(_) => format!("{HERE}/../../target/staticlib"),
    };
    let folder = temporary("stand-in-library");
    fs::create_dir_all(&folder).unwrap();
    let fresh = format!("{folder}/fresh.a");
    let mut rename = Command::new("objcopy");
    for call in CALLS {
        rename.args([
            "--redefine-sym",
            &format!("market_risk_{call}=proved_{call}"),
        ]);
    }
    build(rename.args([&format!("{proved}/libmarket_risk.a"), &fresh]));
    let objects = SOURCES.map(|name| object(&folder, name));
    build(Command::new("ar").args(["rD", &fresh]).args(objects));
    let archive = format!("{folder}/libmarket_risk.a");
    // An archive that is as it was keeps its date, and nothing is built again.
    if fs::read(&archive).ok() != fs::read(&fresh).ok() {
        fs::rename(&fresh, &archive).unwrap();
    }
    folder
}

/// The command over that archive, built once.
fn tool() -> &'static str {
    static TOOL: OnceLock<String> = OnceLock::new();
    TOOL.get_or_init(|| {
        let target = temporary("stand-in-target");
        build(
            Command::new(env!("CARGO"))
                .current_dir(Path::new(HERE).join(".."))
                .env("MARKET_RISK_LIB_DIR", archive())
                .args(["build", "--offline", "--quiet", "--package", "tools"])
                .args(["--target-dir", &target]),
        );
        format!("{target}/debug/market-risk")
    })
}

/// Runs the command with a call taken out or another fault, or "none".
pub fn run(fault: &str, words: &[&str]) -> Output {
    let mut command = Command::new(tool());
    command.env("STAND_IN", fault).args(words);
    command.output().unwrap()
}

/// How the command fails with a fault, which it must, with exit status 1.
pub fn fails(fault: &str, words: &[&str]) -> String {
    let output = run(fault, words);
    assert_eq!(output.status.code(), Some(1), "{fault}");
    String::from_utf8(output.stderr).unwrap()
}

/// What the command says of a call, its first line on it.
pub fn told_of(call: &str, fault: &str) -> String {
    told_within("300", call, fault)
}

/// The same within so many cases. A seed may show the fault by a claim first: then the next one is tried.
pub fn told_within(count: &str, call: &str, fault: &str) -> String {
    let told = (1..=9).find_map(|seed| {
        let seed = seed.to_string();
        let error = fails(fault, &["compare", "--seed", &seed, "--count", count]);
        let mut lines = error.lines();
        lines.find(|line| line.starts_with(call)).map(String::from)
    });
    told.unwrap_or_else(|| panic!("{fault} is not told of {call}"))
}

/// What `options` tells of a table with a fault: nothing may be printed, and an old file of this name must
/// stay.
pub fn told_of_options(name: &str, fault: &str, table: &str) -> String {
    let out = temporary(&format!("stand-in-{name}.deltas"));
    fs::write(&out, "old").unwrap();
    let words = ["options", table, "-o", &out];
    let output = run(fault, &words);
    assert!(output.stdout.is_empty(), "{fault}");
    assert_eq!(output.status.code(), Some(1), "{fault}");
    assert_eq!(fs::read(&out).unwrap(), b"old", "{fault}");
    let error = String::from_utf8(output.stderr).unwrap();
    assert_eq!(fails(fault, &words[..2]), error);
    let told = error.strip_prefix(&format!("market-risk: {table}: "));
    told.unwrap().trim_end().to_string()
}

/// What `least-trade` tells of a book with a fault: nothing may be printed.
pub fn told_of_trade(fault: &str, book: &str, asked: &str) -> String {
    let output = run(fault, &least_trade(book, asked));
    assert!(output.stdout.is_empty(), "{fault}");
    assert_eq!(output.status.code(), Some(1), "{fault}");
    let error = String::from_utf8(output.stderr).unwrap();
    let told = error.strip_prefix(&format!("market-risk: {book}: "));
    told.unwrap().trim_end().to_string()
}
