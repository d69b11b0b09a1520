//! The completion of fish.

use super::{clause, names};
use crate::cli::{Choice, Command, Value};

/// What tells the first word and the command, before the commands.
const BEGIN: &str = r#"# Completion of market-risk for fish, made by market-risk completion fish.

# Whether the command is yet to be named.
function __market_risk_first
    test (count (commandline -opc)) -eq 1
end

# Whether this command is named.
function __market_risk_is
    set -l words (commandline -opc)
    test "$words[2]" = $argv[1]
end

complete -c market-risk -f
complete -c market-risk -n __market_risk_first -s h -l help -d 'the commands'
complete -c market-risk -n __market_risk_first -s V -l version -d 'the version of this tool'
"#;

/// Text in single quotes, as fish reads it.
fn quoted(text: &str) -> String {
    format!("'{}'", text.replace('\\', r"\\").replace('\'', r"\'"))
}

/// How a value is completed.
fn value(value: &Value, commands: &[Command]) -> String {
    match value {
        Value::File(_) => "-F".into(),
        Value::Folder(_) => "-a '(__fish_complete_directories)'".into(),
        Value::Word(words) => format!("-a {}", quoted(&words.join(" "))),
        Value::Command => format!("-a {}", quoted(&names(commands))),
        Value::Number(_) | Value::Text(_) => String::new(),
    }
}

/// An option.
fn option(option: &Choice, commands: &[Command]) -> String {
    let name = match option.name.strip_prefix("--") {
        Some(long) => format!("-l {long}"),
        None => format!("-s {}", option.name.trim_start_matches('-')),
    };
    let given = match &option.value {
        Some(kind @ Value::File(_)) => format!(" -r {}", value(kind, commands)),
        Some(kind) => format!(" -x {}", value(kind, commands)),
        None => String::new(),
    };
    format!("{name}{given} -d {}", quoted(clause(option.about)))
}

/// The lines of a command.
fn command(command: &Command, commands: &[Command]) -> String {
    let (name, brief) = (command.name, quoted(command.brief));
    let mut text =
        format!("\ncomplete -c market-risk -n __market_risk_first -a {name} -d {brief}\n");
    let mut line = |rest: &str| {
        let line = format!("complete -c market-risk -n '__market_risk_is {name}' {rest}");
        text.push_str(line.trim_end());
        text.push('\n');
    };
    for one in command.options {
        line(&option(one, commands));
    }
    line("-s h -l help -d 'what the command does'");
    if let Some(operands) = &command.operands {
        line(&value(operands, commands));
    }
    text
}

/// The script.
pub fn script(commands: &[Command]) -> String {
    let commands = commands.iter().map(|one| command(one, commands));
    BEGIN.to_string() + &commands.collect::<String>()
}
