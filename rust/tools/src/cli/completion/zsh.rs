//! The completion of zsh.

use super::{clause, names, quoted};
use crate::cli::{Choice, Command, Value};

/// What stands before the list of commands.
const BEGIN: &str = "#compdef market-risk
# Completion of market-risk for zsh, made by market-risk completion zsh.

_market_risk() {
    local -a commands
    commands=(
";

/// What stands between the list and the cases of the commands.
const MIDDLE: &str = "    )
    if ((CURRENT == 2)); then
        _describe -t commands command commands
        _arguments '--help[the commands]' '--version[the version of this tool]'
        return
    fi
    shift words
    ((CURRENT--))
    case $words[1] in
";

/// What ends the script: as a function of its own it is run; sourced, it is made known.
const END: &str = r#"    esac
}

if [ "$funcstack[1]" = _market-risk ]; then
    _market_risk "$@"
else
    compdef _market_risk market-risk
fi
"#;

/// Text within the brackets of an option or before a colon.
fn plain(text: &str) -> String {
    let mut plain = String::new();
    for letter in text.chars() {
        if matches!(letter, ':' | '[' | ']' | '\\') {
            plain.push('\\');
        }
        plain.push(letter);
    }
    plain
}

/// What a value is called and completed to.
fn action(value: &Value, commands: &[Command]) -> String {
    let to = match value {
        Value::File(_) => "_files".into(),
        Value::Folder(_) => "_files -/".into(),
        Value::Word(words) => format!("({})", words.join(" ")),
        Value::Command => format!("({})", names(commands)),
        Value::Number(_) | Value::Text(_) => " ".into(),
    };
    format!(":{}:{to}", plain(&value.shown()))
}

/// An option, as `_arguments` takes it.
fn option(option: &Choice, commands: &[Command]) -> String {
    let about = plain(clause(option.about));
    let value = option.value.map(|value| action(&value, commands));
    let equals = match value.is_some() && option.name.starts_with("--") {
        true => "=",
        false => "",
    };
    let value = value.unwrap_or_default();
    quoted(&format!("{}{equals}[{about}]{value}", option.name))
}

/// The case of a command.
fn command(command: &Command, commands: &[Command]) -> String {
    let mut words: Vec<String> = command
        .options
        .iter()
        .map(|one| option(one, commands))
        .collect();
    words.push(quoted("(-h --help)--help[what the command does]"));
    if let Some(operands) = &command.operands {
        words.push(quoted(&format!("*{}", action(operands, commands))));
    }
    let words = words.join(" \\\n            ");
    format!(
        "    {})\n        _arguments -S \\\n            {words}\n        ;;\n",
        command.name
    )
}

/// The script.
pub fn script(commands: &[Command]) -> String {
    let mut text = String::from(BEGIN);
    for command in commands {
        let entry = format!("{}:{}", command.name, plain(command.brief));
        text.push_str(&format!("        {}\n", quoted(&entry)));
    }
    text.push_str(MIDDLE);
    text.extend(commands.iter().map(|one| command(one, commands)));
    text + END
}
