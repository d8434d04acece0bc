//! What a shell offers where a word of the command line is begun. Names of files are left to the shell itself.
use crate::syntax::{Command, Opt, COMMANDS, HELPERS, SHELLS};

/// The names of the commands, and of what stands in the place of one.
fn names() -> (String, String) {
    let names: Vec<&str> = COMMANDS.iter().map(|command| command.name).collect();
    (names.join(" "), HELPERS.join(" "))
}

/// The flags of a command.
fn flags(command: &Command) -> String {
    command.options.iter().map(|option| format!("{} ", option.flag)).collect()
}

/// The script for bash.
pub fn bash() -> String {
    let ((names, helpers), shells) = (names(), SHELLS.join(" "));
    let options: String = COMMANDS.iter().map(options).collect();
    format!(
        "\
# Completion of chaldoref for bash, as `chaldoref completion bash` prints it.
_chaldoref() {{
    local word=${{COMP_WORDS[COMP_CWORD]}} names=\"{names}\" words=
    case $COMP_CWORD:${{COMP_WORDS[1]}}:$word in
        1:*) words=\"$names {helpers} --help --version\" ;;
        2:help:*) words=$names ;;
        2:completion:*) words=\"{shells}\" ;;
{options}    esac
    mapfile -t COMPREPLY < <(compgen -W \"$words\" -- \"$word\")
}}
complete -o default -F _chaldoref chaldoref
"
    )
}

/// The line for the options of a command.
fn options(command: &Command) -> String {
    format!("        *:{}:-*) words=\"{}--help\" ;;\n", command.name, flags(command))
}

/// The script for zsh.
pub fn zsh() -> String {
    let ((names, helpers), shells) = (names(), SHELLS.join(" "));
    let line =
        |command: &Command| format!("        {}) compadd -- {}--help; _files ;;\n", command.name, flags(command));
    let options: String = COMMANDS.iter().map(line).collect();
    format!(
        "\
#compdef chaldoref
# Completion of chaldoref for zsh, as `chaldoref completion zsh` prints it.
_chaldoref() {{
    if (( CURRENT == 2 )); then
        compadd -- {names} {helpers} --help --version
        return
    fi
    case $words[2] in
        help) compadd -- {names} ;;
        completion) compadd -- {shells} ;;
{options}    esac
}}
compdef _chaldoref chaldoref
"
    )
}

/// The script for fish.
pub fn fish() -> String {
    let first = "complete -c chaldoref -n __fish_use_subcommand";
    let names: String = COMMANDS
        .iter()
        .map(|command| format!("{first} -f -a {} -d '{}'\n", command.name, fish_text(command.about)))
        .collect();
    let helpers: String = HELPERS.iter().map(|name| format!("{first} -f -a {name}\n")).collect();
    let options: String =
        COMMANDS.iter().flat_map(|command| command.options.iter().map(|option| of_fish(command, option))).collect();
    let (all, shells) = (self::names().0, SHELLS.join(" "));
    format!(
        "\
# Completion of chaldoref for fish, as `chaldoref completion fish` prints it.
{names}{helpers}complete -c chaldoref -n '__fish_seen_subcommand_from help' -f -a '{all}'
complete -c chaldoref -n '__fish_seen_subcommand_from completion' -f -a '{shells}'
complete -c chaldoref -l help -d 'how to use it'
{options}"
    )
}

/// The line for an option of a command.
fn of_fish(command: &Command, option: &Opt) -> String {
    let flag = match option.flag.strip_prefix("--") {
        Some(long) => format!("-l {long}"),
        None => format!("-s {}", option.flag.trim_start_matches('-')),
    };
    let value = if option.value.is_some() { " -r" } else { "" };
    let about = fish_text(option.about);
    format!("complete -c chaldoref -n '__fish_seen_subcommand_from {}' {flag}{value} -d '{about}'\n", command.name)
}

/// A text between fish's single quotes.
fn fish_text(text: &str) -> String {
    text.replace('\\', "\\\\").replace('\'', "\\'")
}
