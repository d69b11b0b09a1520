//! How a command is called, read out of its forms: which files and options it takes and must have.

use super::near::listed;
use super::{usage, Args, Choice, Command, Failure};

/// A form of a command in its parts, each with whether it must be given.
pub struct Form<'a> {
    text: &'a str,
    pub operands: Vec<(&'a str, bool)>,
    options: Vec<(&'a Choice, bool)>,
}

/// How many brackets of a word open, less those that close.
fn opened(word: &str) -> isize {
    word.matches('[').count() as isize - word.matches(']').count() as isize
}

impl<'a> Form<'a> {
    /// The parts of a form: what stands in brackets may be left out.
    fn new(command: &'a Command, text: &'a str) -> Form<'a> {
        let (mut operands, mut options) = (vec![], vec![]);
        let mut open = 0;
        let mut words = text.split_whitespace();
        while let Some(word) = words.next() {
            let must = open == 0 && !word.starts_with('[');
            let name = word.trim_matches(['[', ']']);
            open += opened(word);
            match command.options.iter().find(|option| option.name == name) {
                Some(option) => {
                    options.push((option, must));
                    let value = option.value.and_then(|_| words.next());
                    open += value.map_or(0, opened);
                }
                None if name != "|" => operands.push((name, must)),
                None => {}
            }
        }
        Form {
            text,
            operands,
            options,
        }
    }

    /// The options that must be given and are not, as usage lines show them.
    fn missing(&self, args: &Args) -> Vec<String> {
        let wanted = self.options.iter().filter(|(_, must)| *must);
        let wanted = wanted.filter(|(option, _)| !args.given(option.name));
        wanted.map(|(option, _)| option.shown()).collect()
    }

    /// The options that are given and are none of its own, as usage lines show them.
    fn astray(&self, command: &Command, args: &Args) -> Vec<String> {
        let own = |one: &&Choice| self.options.iter().any(|(own, _)| own.name == one.name);
        let given = command.options.iter().filter(|one| args.given(one.name));
        given.filter(|one| !own(one)).map(Choice::shown).collect()
    }

    /// How many of its options are given.
    fn given(&self, args: &Args) -> usize {
        let options = self.options.iter();
        options
            .filter(|(option, _)| args.given(option.name))
            .count()
    }
}

/// The words of one list that another has not.
fn without(these: &[String], those: &[String]) -> Vec<String> {
    let these = these.iter().filter(|word| !those.contains(word));
    these.cloned().collect()
}

/// What is told of words that are missing.
pub fn are_missing(words: &[String]) -> String {
    let verb = if words.len() == 1 { "is" } else { "are" };
    format!("{} {verb} missing", listed(words, "and"))
}

/// What may be given in the place of missing words by other forms.
fn in_place(words: &[String], others: &[Vec<String>]) -> String {
    let place = |other: &Vec<String>| {
        let lists = [without(other, words), without(words, other)];
        let told = lists.each_ref().map(|words| listed(words, "and"));
        let [other, own] = told.each_ref().map(String::as_str);
        match lists.iter().any(Vec::is_empty) {
            true => String::new(),
            false => format!(", or {other} in the place of {own}"),
        }
    };
    others.iter().map(place).collect()
}

impl Command {
    /// The forms that have most of the options that are given.
    fn fitting(&self, args: &Args) -> Vec<Form<'_>> {
        let forms = self.forms.iter().map(|text| Form::new(self, text));
        let mut forms: Vec<Form> = forms.collect();
        let most = forms.iter().map(|form| form.given(args)).max();
        forms.retain(|form| Some(form.given(args)) == most);
        forms
    }

    /// The form that is meant by the options that are given: the first that has most of them.
    pub fn form(&self, args: &Args) -> Option<Form<'_>> {
        self.fitting(args).into_iter().next()
    }

    /// How the command is called in a form.
    pub fn call(&self, form: &Form) -> String {
        let call = format!("market-risk {} {}", self.name, form.text);
        call.trim_end().into()
    }

    /// What is told of a command line without an option that it must have: which, and which others may
    /// stand in its place by another form; or of options that do not go together.
    pub fn incomplete(&self, args: &Args) -> Failure {
        let forms = self.fitting(args);
        let missing: Vec<_> = forms.iter().map(|form| form.missing(args)).collect();
        let told = match &missing[0][..] {
            [] => {
                let astray = listed(&forms[0].astray(self, args), "and");
                format!("{astray} is given where it has no place")
            }
            words => are_missing(words) + &in_place(words, &missing[1..]),
        };
        usage(&format!("{}: {told}; {}", self.name, self.call(&forms[0])))
    }
}

#[cfg(test)]
mod tests {
    use super::*;
    use crate::COMMANDS;

    /// Catches a value that is taken for a file, and a part in brackets that must be given.
    #[test]
    fn forms_have_files_and_options() {
        let forms = COMMANDS.iter().flat_map(|command| {
            let forms = command.forms.iter().map(|text| Form::new(command, text));
            forms.map(|form| (command.name, form))
        });
        for (command, form) in forms {
            let name =
                |(name, must): &(&str, bool)| format!("{name}{}", if *must { "" } else { "?" });
            let names: Vec<String> = form.operands.iter().map(name).collect();
            let expected = match command {
                "pack" | "unpack" if form.text.starts_with("--options TABLE") => "TABLE CSV",
                "pack" if form.text.starts_with("--options") => "CSV TABLE",
                "pack" => "CSV BOOK",
                "unpack" => "BOOK CSV",
                "join" => "A B BOOK",
                "net" | "offset" => "BOOK OUT",
                "options" => "TABLE",
                "table" => "FILE?",
                "help" => "COMMAND?",
                "completion" => "bash|zsh|fish",
                "dearest" | "compare" | "bench" | "vectors" | "man" | "version" => "",
                _ => "BOOK",
            };
            assert_eq!(names.join(" "), expected, "{command}");
            let must = form.options.iter().filter(|(_, must)| *must);
            let must: Vec<&str> = must.map(|(option, _)| option.name).collect();
            let bare = form.text.split([' ']).filter(|word| word.starts_with('-'));
            let bare: Vec<&str> = bare.filter(|word| !word.ends_with(']')).collect();
            assert_eq!(must, bare, "{command}");
        }
    }
}
