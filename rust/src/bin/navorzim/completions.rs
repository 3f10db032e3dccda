//! What a shell needs to complete a command line, made of the table of commands and their usage lines: `navorzim completions SHELL`
//! prints it, and the installation writes it.
use crate::commands::{Command, COMMANDS};
use crate::usage::{self, kind, Item, Kind};
use std::fmt::Write;

/// The completions for a shell, if there are any.
pub fn script(shell: &str) -> Option<String> {
    match shell {
        "bash" => Some(bash()),
        "zsh" => Some(zsh()),
        "fish" => Some(fish()),
        _ => None,
    }
}

/// An option as it is typed: `-o` has two names.
fn spellings(option: &'static str) -> Vec<&'static str> {
    if option == "-o" {
        vec!["-o", "--output"]
    } else {
        vec![option]
    }
}

fn all_spellings(command: &Command) -> Vec<&'static str> {
    command.options.iter().flat_map(|option| spellings(option)).chain(["-h", "--help"]).collect()
}

fn names() -> Vec<&'static str> {
    COMMANDS.iter().map(|command| command.name).collect()
}

/// The words that may stand as they are at a place.
fn literals(place: &[Item]) -> Vec<&'static str> {
    place.iter().filter_map(|item| if let Item::Literal(word) = item { Some(*word) } else { None }).collect()
}

/// What may stand at a place besides.
fn kinds(place: &[Item]) -> Vec<Kind> {
    place.iter().filter_map(|item| if let Item::Word(name) = item { kind(name) } else { None }).collect()
}

fn bash() -> String {
    let mut script = String::from(BASH_HEAD);
    let _ = writeln!(script, "    if [ \"$COMP_CWORD\" = 1 ]; then");
    let _ = writeln!(script, "        _navorzim_words '{} help --help --version'", names().join(" "));
    let _ = writeln!(script, "        return\n    fi");
    write_bash_values(&mut script);
    write_bash_options(&mut script);
    script += BASH_PLACE;
    write_bash_words(&mut script);
    script + "}\ncomplete -F _navorzim navorzim\n"
}

/// After an option that has a value: what the value can be.
fn write_bash_values(script: &mut String) {
    let (mut files, mut folders, mut numbers) = (Vec::new(), Vec::new(), Vec::new());
    for command in COMMANDS {
        for (option, value) in usage::options(command) {
            let list = match value.and_then(kind) {
                Some(Kind::File) => &mut files,
                Some(Kind::Folder) => &mut folders,
                Some(Kind::Numbers) => &mut numbers,
                None => continue,
            };
            list.extend(spellings(option).into_iter().map(|name| format!("'{} {name}'", command.name)));
        }
    }
    let _ = writeln!(script, "    case \"$command $before\" in");
    for (list, done) in [(files, "_navorzim_files -f"), (folders, "_navorzim_files -d"), (numbers, ":")] {
        let _ = writeln!(script, "    {}) {done}; return ;;", list.join(" | "));
    }
    let _ = writeln!(script, "    esac");
}

/// The options of each command, and those of them that have a value.
fn write_bash_options(script: &mut String) {
    let _ = writeln!(script, "    case $command in");
    for command in COMMANDS {
        let valued = usage::options(command).into_iter().filter(|(_, value)| value.is_some());
        let valued: Vec<&str> = valued.flat_map(|(option, _)| spellings(option)).collect();
        let (name, options) = (command.name, all_spellings(command).join(" "));
        let _ = writeln!(script, "    {name}) options='{options}' valued='{}' ;;", valued.join(" "));
    }
    let _ = writeln!(script, "    esac");
}

/// What can be a command's first word, its second and so on.
fn write_bash_words(script: &mut String) {
    let _ = writeln!(script, "    case \"$command $place\" in");
    for command in COMMANDS {
        for (place, words) in usage::words(command).iter().enumerate() {
            let done = match (literals(words), kinds(words)) {
                (literals, _) if !literals.is_empty() => format!("_navorzim_words '{}'", literals.join(" ")),
                (_, kinds) if kinds.contains(&Kind::File) => "_navorzim_files -f".to_string(),
                (_, kinds) if kinds.contains(&Kind::Folder) => "_navorzim_files -d".to_string(),
                _ => continue,
            };
            let _ = writeln!(script, "    '{} {place}') {done} ;;", command.name);
        }
    }
    let _ = writeln!(script, "    'help 0') _navorzim_words '{}' ;;\n    esac", names().join(" "));
}

const BASH_HEAD: &str = r#"# navorzim: completions for bash, printed by `navorzim completions bash`
_navorzim_words() { mapfile -t COMPREPLY < <(compgen -W "$1" -- "$word"); }
_navorzim_files() {
    compopt -o filenames 2>/dev/null
    mapfile -t COMPREPLY < <(compgen "$1" -- "$word")
}
_navorzim() {
    local word=${COMP_WORDS[COMP_CWORD]} before=${COMP_WORDS[COMP_CWORD-1]} command=${COMP_WORDS[1]}
    local options='' valued='' place=0 at
    COMPREPLY=()
    # bash takes --name=value for three words
    if [ "$word" = = ]; then word=''; fi
    if [ "$before" = = ]; then before=${COMP_WORDS[COMP_CWORD-2]}; fi
"#;

const BASH_PLACE: &str = r#"    case $word in
    -*) _navorzim_words "$options"; return ;;
    esac
    for ((at = 2; at < COMP_CWORD; at++)); do
        case " $valued " in
        *" ${COMP_WORDS[at]} "*)
            at=$((at + 1))
            if [ "${COMP_WORDS[at]}" = = ]; then at=$((at + 1)); fi
            ;;
        *) case ${COMP_WORDS[at]} in -?*) ;; *) place=$((place + 1)) ;; esac ;;
        esac
    done
"#;

/// Text between single quotes, for zsh and fish.
fn quoted(text: &str) -> String {
    format!("'{}'", text.replace('\'', "'\\''"))
}

fn zsh() -> String {
    let mut script = String::from(ZSH_HEAD);
    for command in COMMANDS {
        let _ = writeln!(script, "        {}", quoted(&format!("{}:{}", command.name, usage::summary(command))));
    }
    script += ZSH_STATE;
    for command in COMMANDS {
        write_zsh_command(&mut script, command);
    }
    let _ = writeln!(script, "        help) _arguments '1:COMMAND:({})' ;;", names().join(" "));
    script + ZSH_END
}

fn write_zsh_command(script: &mut String, command: &Command) {
    let _ = write!(script, "        {}) _arguments '(- *)'{{-h,--help}}'[says how it is used]'", command.name);
    for (option, value) in usage::options(command) {
        let said = usage::purpose(command, option).replace('[', "\\[").replace(']', "\\]");
        let value = value.map_or(String::new(), |value| format!(":{value}:{}", zsh_action(kind(value))));
        let names = spellings(option);
        let others = if names.len() > 1 { format!("({})", names.join(" ")) } else { String::new() };
        for name in names {
            // --name VALUE and --name=VALUE
            let equals = if name.starts_with("--") && !value.is_empty() { "=" } else { "" };
            let _ = write!(script, " \\\n            {}", quoted(&format!("{others}{name}{equals}[{said}]{value}")));
        }
    }
    for (place, words) in usage::words(command).iter().enumerate() {
        let (label, action) = match words.first() {
            Some(Item::Word(name)) => (*name, zsh_action(kind(name)).to_string()),
            _ => ("NAME", format!("({})", literals(words).join(" "))),
        };
        let _ = write!(script, " \\\n            {}", quoted(&format!("{}:{label}:{action}", place + 1)));
    }
    *script += " ;;\n";
}

const ZSH_HEAD: &str = "\
#compdef navorzim
# navorzim: completions for zsh, printed by `navorzim completions zsh`
_navorzim() {
    local curcontext=$curcontext state line
    local -a commands
    commands=(
";

const ZSH_STATE: &str = r"        'help:tells more of a command'
    )
    _arguments -C '(- *)'{-h,--help}'[says how it is used]' '(- *)'{-V,--version}'[prints the version]' \
        '1:command:->command' '*::argument:->argument'
    case $state in
    command) _describe -t commands command commands ;;
    argument)
        case $words[1] in
";

const ZSH_END: &str = r#"        esac ;;
    esac
}
if [ "$funcstack[1]" = _navorzim ]; then _navorzim "$@"; else compdef _navorzim navorzim; fi
"#;

fn zsh_action(kind: Option<Kind>) -> &'static str {
    match kind {
        Some(Kind::File) => "_files",
        Some(Kind::Folder) => "_files -/",
        Some(Kind::Numbers) | None => " ",
    }
}

fn fish() -> String {
    let mut script = String::from(FISH_HEAD);
    for command in COMMANDS {
        let said = quoted(&usage::summary(command));
        let _ = writeln!(script, "complete -c navorzim -n __navorzim_first -a {} -d {said}", command.name);
    }
    script += FISH_ALWAYS;
    let _ = writeln!(script, "complete -c navorzim -n '__navorzim_is help' -a '{}'", names().join(" "));
    for command in COMMANDS {
        write_fish_command(&mut script, command);
    }
    script
}

fn write_fish_command(script: &mut String, command: &Command) {
    let head = format!("complete -c navorzim -n '__navorzim_is {}'", command.name);
    for (option, value) in usage::options(command) {
        let name = match option.strip_prefix("--") {
            Some(name) => format!("-l {name}"),
            None => "-s o -l output".to_string(),
        };
        let takes = match value.map(kind) {
            None => "",
            Some(Some(Kind::File)) => " -r -F",
            Some(Some(Kind::Folder)) => " -x -a '(__fish_complete_directories)'",
            Some(_) => " -x",
        };
        let _ = writeln!(script, "{head} {name}{takes} -d {}", quoted(&usage::purpose(command, option)));
    }
    let words: Vec<Item> = usage::words(command).into_iter().flatten().collect();
    let _ = match (literals(&words), kinds(&words)) {
        (literals, _) if !literals.is_empty() => writeln!(script, "{head} -a '{}'", literals.join(" ")),
        (_, kinds) if kinds.contains(&Kind::File) => writeln!(script, "{head} -F"),
        (_, kinds) if kinds.contains(&Kind::Folder) => writeln!(script, "{head} -a '(__fish_complete_directories)'"),
        _ => Ok(()),
    };
}

const FISH_ALWAYS: &str = "\
complete -c navorzim -n __navorzim_first -a help -d 'tells more of a command'
complete -c navorzim -n __navorzim_first -s V -l version -d 'prints the version'
complete -c navorzim -s h -l help -d 'says how it is used'
";

const FISH_HEAD: &str = "\
# navorzim: completions for fish, printed by `navorzim completions fish`
function __navorzim_first
    test (count (commandline -opc)) -eq 1
end
function __navorzim_is
    set -l words (commandline -opc)
    test (count $words) -gt 1; and test $words[2] = $argv[1]
end
complete -c navorzim -f
";
