//! The completion of bash.

use super::{names, quoted};
use crate::cli::{Choice, Command, Value};

/// What looks up the word to complete, before the commands.
const BEGIN: &str = r#"# Completion of market-risk for bash, made by market-risk completion bash.

# The words that may stand where $word is: files, folders, these words or none.
_market_risk_offer() { # file | folder | words WORDS | none
    case $1 in
    file) mapfile -t COMPREPLY < <(compgen -f -- "$word") ;;
    folder) mapfile -t COMPREPLY < <(compgen -d -- "$word") ;;
    words) mapfile -t COMPREPLY < <(compgen -W "$2" -- "$word") ;;
    esac
    case $1 in file | folder) compopt -o filenames 2>/dev/null ;; esac
    return 0
}

_market_risk() {
    local word=${COMP_WORDS[COMP_CWORD]} before=${COMP_WORDS[COMP_CWORD - 1]}
    COMPREPLY=()
    # A = stands as a word of its own.
    if [ "$word" = = ]; then
        word=
    elif [ "$before" = = ]; then
        before=${COMP_WORDS[COMP_CWORD - 2]}
    fi
"#;

/// What a value is completed to.
fn offer(value: Option<Value>, commands: &[Command]) -> String {
    match value {
        Some(Value::File(_)) => "file".into(),
        Some(Value::Folder(_)) => "folder".into(),
        Some(Value::Word(words)) => format!("words {}", quoted(&words.join(" "))),
        Some(Value::Command) => format!("words {}", quoted(&names(commands))),
        Some(Value::Number(_) | Value::Text(_)) | None => "none".into(),
    }
}

/// The case of an option that takes a value.
fn value(command: &Command, option: &Choice, commands: &[Command]) -> String {
    let offer = offer(option.value, commands);
    let (name, option) = (command.name, option.name);
    format!("    '{name} {option}') _market_risk_offer {offer} && return ;;\n")
}

/// The cases of a command: its options, and its other words.
fn command(command: &Command, commands: &[Command]) -> String {
    let names = command.options.iter().map(|option| option.name);
    let names: Vec<&str> = names.chain(["--help"]).collect();
    let (name, names) = (command.name, quoted(&names.join(" ")));
    let offer = offer(command.operands, commands);
    format!(
        "    '{name} '-*) _market_risk_offer words {names} ;;\n\
         \x20   '{name} '*) _market_risk_offer {offer} ;;\n"
    )
}

/// The script.
pub fn script(commands: &[Command]) -> String {
    let mut text = String::from(BEGIN);
    let first = quoted(&format!("{} --help --version", names(commands)));
    text.push_str(&format!(
        "    [ \"$COMP_CWORD\" -gt 1 ] || {{ _market_risk_offer words {first}; return; }}\n\
         \x20   case \"${{COMP_WORDS[1]}} $before\" in\n"
    ));
    for command in commands {
        let valued = command.options.iter().filter(|one| one.value.is_some());
        text.extend(valued.map(|option| value(command, option, commands)));
    }
    text.push_str("    esac\n    case \"${COMP_WORDS[1]} $word\" in\n");
    text.extend(commands.iter().map(|one| command(one, commands)));
    text + "    esac\n}\n\ncomplete -F _market_risk market-risk\n"
}
