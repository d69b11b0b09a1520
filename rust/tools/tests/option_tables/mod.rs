//! Option tables for the command, and what it prints of them.
#![allow(dead_code)]

use crate::common::{prints, sample, temporary};
use std::fs::{self, File};
use std::process::Command;

/// The first line of an option table as text.
pub const HEADER: &str = "class,group,right,kind,amount,delta,gamma,vega,volatility,days";

/// A table of some lines, as text.
pub fn csv(name: &str, lines: &[&str]) -> String {
    let path = temporary(&format!("{name}.options.csv"));
    let lines: String = lines.iter().map(|line| format!("{line}\n")).collect();
    fs::write(&path, format!("{HEADER}\n{lines}")).unwrap();
    path
}

/// The bytes of the sample, in a file of its own for each test.
pub fn packed_options(test: &str) -> String {
    let table = temporary(&format!("{test}.options"));
    prints(&["pack", "--options", &sample("options"), &table]);
    table
}

/// A part of what is printed, 0 to 3, without its title.
pub fn part(text: &str, part: usize) -> &str {
    let parts: Vec<&str> = text.split("\n\n").collect();
    parts[part].split_once('\n').unwrap().1.trim_end()
}

/// The figures of a line of a part, which begins with these words.
pub fn figure<'a>(text: &'a str, of: usize, begin: &str) -> Vec<&'a str> {
    let begin: Vec<&str> = begin.split(' ').collect();
    let lines = part(text, of).lines();
    let mut words = lines.map(|line| line.split_whitespace().collect::<Vec<_>>());
    let line = words.find(|words| words.starts_with(&begin)).unwrap();
    line[begin.len()..].to_vec()
}

/// What the command prints with a file as standard input, where it must succeed.
pub fn piped(words: &[&str], file: &str) -> String {
    let mut command = Command::new(env!("CARGO_BIN_EXE_market-risk"));
    let command = command.args(words).stdin(File::open(file).unwrap());
    let output = command.output().unwrap();
    let errors = String::from_utf8_lossy(&output.stderr);
    assert!(output.status.success(), "{words:?}: {errors}");
    String::from_utf8(output.stdout).unwrap()
}
