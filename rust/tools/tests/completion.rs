//! Completion as a shell does it.

mod common;

use common::{fails, prints, temporary};
use std::fs;
use std::process::Command;

/// A folder with a file, a file with a blank in its name and a folder.
fn folder(name: &str) -> String {
    let folder = temporary(name);
    let _ = fs::remove_dir_all(&folder);
    fs::create_dir_all(format!("{folder}/bonds.d")).unwrap();
    fs::write(format!("{folder}/bond.book"), "").unwrap();
    fs::write(format!("{folder}/bonds of may.book"), "").unwrap();
    folder
}

/// What bash offers at the end of a line, whose words are told apart by |, sorted.
fn bash(folder: &str, line: &str) -> Vec<String> {
    let script = r#"
        eval "$("$1" completion bash)"
        IFS='|' read -ra COMP_WORDS <<<"$2|"
        COMP_CWORD=$((${#COMP_WORDS[@]} - 1))
        _market_risk
        [ ${#COMPREPLY[@]} -eq 0 ] || printf '%s\n' "${COMPREPLY[@]}""#;
    let tool = env!("CARGO_BIN_EXE_market-risk");
    let mut shell = Command::new("bash");
    shell.args(["-uc", script, "bash", tool, line]);
    let output = shell.current_dir(folder).output().unwrap();
    let errors = String::from_utf8(output.stderr).unwrap();
    assert!(
        output.status.success() && errors.is_empty(),
        "{line}: {errors}"
    );
    let text = String::from_utf8(output.stdout).unwrap();
    let mut offered: Vec<String> = text.lines().map(String::from).collect();
    offered.sort_unstable();
    offered
}

#[test]
fn bash_completes_commands_options_words_and_files() {
    let folder = folder("bash");
    let files = ["bond.book", "bonds of may.book", "bonds.d"];
    for (line, expected) in [
        ("market-risk|rep", &["report"][..]),
        ("market-risk|--v", &["--version"]),
        ("market-risk|help|lad", &["ladder"]),
        ("market-risk|completion|", &["bash", "fish", "zsh"]),
        (
            "market-risk|net|-",
            &["--comparisons", "--csv", "--help", "--offset", "--pairs"],
        ),
        ("market-risk|report|x.book|--t", &["--table"]),
        ("market-risk|least-trade|--side|", &["long", "short"]),
        ("market-risk|least-trade|--side|s", &["short"]),
        ("market-risk|least-trade|--side|=", &["long", "short"]),
        ("market-risk|least-trade|--side|=|l", &["long"]),
        ("market-risk|ladder|--currency|", &[]),
        ("market-risk|report|bond", &files),
        ("market-risk|report|--table|bond", &files),
        ("market-risk|report|--table|=|bond", &files),
        ("market-risk|dearest|-o|bond", &files),
        ("market-risk|vectors|--write|", &["bonds.d"]),
        ("market-risk|dearest|bond", &[]),
        ("market-risk|unheard|", &[]),
    ] {
        assert_eq!(bash(&folder, line), expected, "{line}");
    }
    // All commands that --help lists, and the two options that stand for one.
    let help = prints(&["--help"]);
    let listed = help.lines().filter_map(|line| line.strip_prefix("  "));
    let listed = listed.map(|line| line.split(' ').next().unwrap());
    let mut all: Vec<&str> = listed.chain(["--help", "--version"]).collect();
    all.sort_unstable();
    assert_eq!(bash(&folder, "market-risk|"), all);
}

/// Catches an option that help tells and a completion has not.
#[test]
fn each_shell_has_each_option() {
    let help = prints(&["help", "least-trade"]);
    let options = help.lines().filter_map(|line| line.strip_prefix("  --"));
    let options: Vec<&str> = options
        .map(|line| line.split(' ').next().unwrap())
        .collect();
    assert_eq!(options.len(), 7);
    for (shell, before) in [("bash", "--"), ("zsh", "--"), ("fish", "-l ")] {
        let script = prints(&["completion", shell]);
        for option in &options {
            assert!(
                script.contains(&format!("{before}{option}")),
                "{shell} {option}"
            );
        }
    }
}

#[test]
fn a_shell_must_be_named() {
    for words in [&["completion"][..], &["completion", "tcsh"]] {
        assert!(fails(2, words).contains("bash, zsh or fish"));
    }
}

/// What a shell prints of a script over the tool's completion, if the shell is there.
fn asked(shell: &str, folder: &str, script: &str) -> Option<String> {
    let mut command = Command::new(shell);
    let tool = env!("CARGO_BIN_EXE_market-risk");
    command.args(["-c", script]).env("TOOL", tool);
    match command.current_dir(folder).output() {
        Ok(output) => Some(String::from_utf8_lossy(&output.stdout).into_owned()),
        Err(_) => {
            eprintln!("skipped: {shell} is not there");
            None
        }
    }
}

#[test]
fn fish_completes_commands_options_words_and_files() {
    let folder = folder("fish");
    let offered = |line: &str| {
        let script = format!("$TOOL completion fish | source; complete -C 'market-risk {line}'");
        let text = asked("fish", &folder, &script)?;
        let words = text.lines().map(|line| line.split('\t').next().unwrap());
        Some(words.map(String::from).collect::<Vec<_>>())
    };
    for (line, expected) in [
        ("repo", &["report"][..]),
        ("help ladd", &["ladder"]),
        ("report --t", &["--table"]),
        ("least-trade --side ", &["long", "short"]),
        ("least-trade --side=s", &["--side=short"]),
        ("ladder --currency ", &[]),
        ("completion ", &["bash", "fish", "zsh"]),
        ("report bond.", &["bond.book"]),
        ("vectors --write ", &["bonds.d/"]),
    ] {
        let Some(mut offered) = offered(line) else {
            return;
        };
        offered.sort_unstable();
        assert_eq!(offered, expected, "{line}");
    }
}

/// Catches options and words that zsh is not told of. What it does with them is its own.
#[test]
fn zsh_is_told_of_commands_options_words_and_files() {
    let folder = folder("zsh");
    let told = |words: &str| {
        let script = format!(
            "compdef() {{ }}; _describe() {{ print -l $commands; }}; _arguments() {{ print -l -- $@; }}\n\
             eval \"$($TOOL completion zsh)\"\n\
             words=(market-risk {words} ''); CURRENT=$#words; _market_risk"
        );
        asked("zsh", &folder, &script)
    };
    let Some(commands) = told("") else { return };
    assert!(commands.contains("report:the six charges of a book and their total\n"));
    let trade = told("least-trade x.book").unwrap();
    assert!(trade.contains("--side=[the side that is added to]:long|short:(long short)\n"));
    assert!(trade.contains("--table=[charges under this table]:FILE:_files\n"));
    assert!(trade.contains("*:BOOK:_files\n"));
    assert!(told("vectors").unwrap().contains("]:DIR:_files -/\n"));
    assert!(told("completion").unwrap().contains("(bash zsh fish)\n"));
}
