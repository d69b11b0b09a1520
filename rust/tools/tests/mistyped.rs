//! Command lines as people mistype them: what is told names the word and what may have been meant.

mod common;
mod typed;

use common::{prints, sample, temporary};
use std::fs;
use std::os::unix::fs::symlink;
use std::process::Command;
use std::sync::LazyLock;
use typed::{FAR, FILES, MEANT, MISSING, NUMBERS, UNUSED};

/// A folder with some files, made once.
static FOLDER: LazyLock<String> = LazyLock::new(|| {
    let folder = temporary("mistyped");
    let _ = fs::remove_dir_all(&folder);
    fs::create_dir_all(format!("{folder}/sub")).unwrap();
    for name in ["a.csv", "b.csv", "Desk.CSV", "sub/two.csv", "sub/Two.csv"] {
        fs::copy(sample("keyed"), format!("{folder}/{name}")).unwrap();
    }
    symlink("nowhere", format!("{folder}/link.csv")).unwrap();
    folder
});

/// What is wrong with a case: the command must end with status 2 and tell what is expected, and nothing
/// else. The words are parted by blanks.
fn wrong(words: &str, expected: &str) -> Option<String> {
    let word = |word: &str| word.replace('~', " ").replace("''", "");
    let list = words.split_whitespace().map(word);
    let mut tool = Command::new(env!("CARGO_BIN_EXE_market-risk"));
    let run = tool.current_dir(&*FOLDER).args(list).output().unwrap();
    let told = String::from_utf8_lossy(&run.stderr).into_owned();
    let right = run.status.code() == Some(2) && run.stdout.is_empty();
    let right = right && told == format!("market-risk: {expected}\n");
    (!right).then(|| format!("{words}\n  ends {}\n  {told}", run.status))
}

/// How a command is called in one of its forms, by its help: the lines of a form are one line.
fn form(command: &str, at: usize) -> String {
    let help = prints(&["help", command]);
    let usage = help.split("\n\n").next().unwrap();
    let begin = format!("market-risk {command}");
    let form = usage.split(&begin).nth(at + 1).unwrap();
    let words = begin.split(' ').chain(form.split_whitespace());
    words.collect::<Vec<_>>().join(" ")
}

/// A text with the form in the place of its name.
fn called(text: &str) -> String {
    let Some((before, rest)) = text.split_once('{') else {
        return text.into();
    };
    let (name, after) = rest.split_once('}').unwrap();
    let (command, at) = name.split_once(' ').unwrap();
    format!("{before}{}{after}", form(command, at.parse().unwrap()))
}

/// Holds a line for each case: its words, and what is told.
fn hold(cases: &str, texts: &[(&str, &str)]) {
    let whole = |text: &str| {
        let put = |text: String, (name, long): &(&str, &str)| text.replace(name, long);
        texts.iter().fold(called(text.trim()), put)
    };
    let cases = cases.lines().filter(|line| !line.trim().is_empty());
    let cases: Vec<(&str, &str)> = cases.map(|case| case.split_once("->").unwrap()).collect();
    assert!(cases.len() > 7);
    let run = |(words, told): &(&str, &str)| wrong(&whole(words), &whole(told));
    let wrong: Vec<String> = cases.iter().filter_map(run).collect();
    assert!(wrong.is_empty(), "{}", wrong.join("\n"));
}

/// Catches a message that does not say which file is missing or too many, and another form's usage.
#[test]
fn files_are_told_by_their_names() {
    hold(FILES, &[]);
}

/// Catches an option that is not told as missing, one that is though it is given, and a form that is
/// not the one that was begun.
#[test]
fn missing_options_are_told_alone() {
    let all = "least-trade a.csv --currency 7 --band 5 --side long --limit 1";
    let place = "or --days D and --coupon C in the place of --band B";
    hold(MISSING, &[("$or", place), ("$all", all)]);
}

/// Catches a command, an option or a word of an option that is near and not told, and a file or an option
/// in the place of the command that is told as one.
#[test]
fn words_are_told_with_those_that_may_be_meant() {
    let most = "the most used are report, ladder, html, pack and unpack";
    hold(MEANT, &[("$most", most)]);
}

/// Catches a guess where nothing speaks for it.
#[test]
fn far_words_are_told_with_none() {
    hold(FAR, &[]);
}

/// Catches advice that is missing, and advice that leads to another figure than may be meant.
#[test]
fn numbers_are_told_with_their_unit() {
    let trade = "least-trade a.csv --currency 7 --side long";
    let [days, coupon, band] = ["--limit 1 --days 9", "--limit 1 --coupon 900", "--band 5"];
    let [days, coupon, band] = [days, coupon, band].map(|end| format!("{trade} {end}"));
    let most = "18,446,744,073,709,551.615; amounts are in thousands, limits are not";
    let texts = [
        ("$units", "units and other signs are not taken;"),
        ("$limit", "not currency units as 1000 or 994.5"),
        ("$parted", "thousands separators are not taken; write"),
        ("$dear", "dearest --rows 3"),
        ("$most", most),
        ("$days", &days),
        ("$coupon", &coupon),
        ("$band", &band),
    ];
    hold(NUMBERS, &texts);
}

/// Catches the system's words, and a file that stands there in other letters or with .csv and is not told.
#[test]
fn files_that_cannot_be_used_are_told_in_words() {
    let way = "a file stands on the way to it in the place of a folder";
    hold(UNUSED, &[("$way", way), ("$long", &"x".repeat(300))]);
}
