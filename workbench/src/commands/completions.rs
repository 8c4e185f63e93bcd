//! `nghi completions`: what a shell has to know to complete a command line, from the table of commands.

use super::{explain, COMMANDS};
use crate::arguments::{Call, Command, Takes, JSON};
use crate::commands::Output;
use crate::failure::{Failure, PLAYABLE};
use crate::json::answer;

pub static COMMAND: Command = Command {
    name: "completions",
    takes: "bash|zsh|fish [--json]",
    does: "a script for the shell, which completes commands and options",
    places: (1, 1),
    options: &[JSON],
};

pub fn run(call: &Call) -> Result<Output, Failure> {
    let shell = call.places[0].to_string_lossy();
    let script = match &shell[..] {
        "bash" => bash(),
        "zsh" => zsh(),
        "fish" => fish(),
        _ => {
            return Err(Failure::command_line(format!(
                "`{shell}` is no shell that is known here; bash, zsh and fish are"
            )))
        }
    };
    let text = match call.has("--json") {
        true => {
            let fields = [("shell", shell.as_ref().into()), ("script", script.into())];
            format!("{}\n", answer("completions", fields))
        }
        false => script,
    };
    Ok(Output::answer(text, PLAYABLE))
}

fn commands() -> impl Iterator<Item = &'static Command> {
    COMMANDS.iter().map(|(command, _)| *command)
}

/// What may stand in the command's first place, where that is one of a few words: `bash|zsh|fish`, or a code.
fn choices(command: &Command) -> Vec<&'static str> {
    if command.name == explain::COMMAND.name {
        return explain::ALL.iter().map(|own| own.code).collect();
    }
    let first = command.takes.split(' ').next().unwrap_or("");
    match first.contains('|') {
        true => first.split('|').collect(),
        false => Vec::new(),
    }
}

/// A text as a shell takes it for one word: between single quotes, if it needs them.
pub fn quoted(text: &str) -> String {
    let plain = |sign: char| sign.is_alphanumeric() || matches!(sign, '.' | '_' | '/' | '-');
    match !text.is_empty() && text.chars().all(plain) {
        true => text.to_string(),
        false => format!("'{}'", text.replace('\'', "'\\''")),
    }
}

/// Where nothing else is to be completed, it is a file's name.
fn bash() -> String {
    let names: Vec<&str> = commands().map(|command| command.name).collect();
    let cases: String = commands()
        .map(|command| {
            let options: Vec<&str> = command.options.iter().map(|(option, _)| *option).collect();
            let (options, choices) = (options.join(" "), choices(command).join(" "));
            format!("        {}) options='{options}' choices='{choices}' ;;\n", command.name)
        })
        .collect();
    format!(
        "# source <(nghi completions bash)\n\
         _nghi() {{\n\
         \x20   local current=${{COMP_WORDS[COMP_CWORD]}} options= choices=\n\
         \x20   if [ \"$COMP_CWORD\" -eq 1 ]; then\n\
         \x20       COMPREPLY=($(compgen -W '{} --help --version' -- \"$current\"))\n\
         \x20       return\n\
         \x20   fi\n\
         \x20   COMPREPLY=()\n\
         \x20   case ${{COMP_WORDS[1]}} in\n\
         {cases}\
         \x20   esac\n\
         \x20   case $current in\n\
         \x20       -*) COMPREPLY=($(compgen -W \"$options --help\" -- \"$current\")) ;;\n\
         \x20       *) COMPREPLY=($(compgen -W \"$choices\" -- \"$current\")) ;;\n\
         \x20   esac\n\
         }}\n\
         complete -o default -F _nghi nghi\n",
        names.join(" ")
    )
}

fn zsh() -> String {
    let described: String = commands()
        .map(|command| format!("        {}\n", quoted(&format!("{}:{}", command.name, command.does))))
        .collect();
    let option = |(option, takes): &(&str, Takes)| match takes {
        Takes::Nothing(what) => quoted(&format!("{option}[{what}]")),
        Takes::One(what) => quoted(&format!("{option}[{what}]:value:_files")),
        Takes::Many(what) => quoted(&format!("*{option}[{what}]:value:_files")),
    };
    let cases: String = commands()
        .map(|command| {
            let options: Vec<String> = command.options.iter().map(option).collect();
            let place = match choices(command) {
                words if words.is_empty() => String::from("'*:file:_files'"),
                words => quoted(&format!("1:word:({})", words.join(" "))),
            };
            let all = [options, vec![place]].concat().join(" ");
            format!("        {}) _arguments {all} ;;\n", command.name)
        })
        .collect();
    format!(
        "#compdef nghi\n\
         # source <(nghi completions zsh)\n\
         _nghi() {{\n\
         \x20   local -a commands=(\n\
         {described}\
         \x20   )\n\
         \x20   if (( CURRENT == 2 )); then\n\
         \x20       _describe command commands\n\
         \x20       return\n\
         \x20   fi\n\
         \x20   local command=$words[2]\n\
         \x20   shift words\n\
         \x20   (( CURRENT-- ))\n\
         \x20   case $command in\n\
         {cases}\
         \x20   esac\n\
         }}\n\
         if [ \"$funcstack[1]\" = _nghi ]; then _nghi \"$@\"; else compdef _nghi nghi; fi\n"
    )
}

fn fish() -> String {
    let quoted = |text: &str| format!("'{}'", text.replace('\\', "\\\\").replace('\'', "\\'"));
    let mut text = String::from("# nghi completions fish | source\n");
    for command in commands() {
        let (name, does) = (command.name, quoted(command.does));
        text.push_str(&format!(
            "complete -c nghi -n __fish_use_subcommand -f -a {name} -d {does}\n"
        ));
        for word in choices(command) {
            text.push_str(&format!(
                "complete -c nghi -n '__fish_seen_subcommand_from {name}' -f -a {word}\n"
            ));
        }
        for (option, takes) in command.options {
            let form = match (option.strip_prefix("--"), option.strip_prefix('-')) {
                (Some(long), _) => format!("-l {long}"),
                (None, short) => format!("-s {}", short.unwrap_or_default()),
            };
            let value = match takes {
                Takes::Nothing(_) => "",
                Takes::One(_) | Takes::Many(_) => " -r",
            };
            text.push_str(&format!(
                "complete -c nghi -n '__fish_seen_subcommand_from {name}' {form}{value} -d {}\n",
                quoted(takes.what())
            ));
        }
    }
    text
}
