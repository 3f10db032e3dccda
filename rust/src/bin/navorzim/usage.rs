//! The help texts, taken apart: usage lines as words and options, and what stands in lists. The man page and the completions are made
//! of these, so that they say what help says.
use crate::arguments::takes_value;
use crate::commands::{Command, COMMANDS};
use crate::help;

/// What a usage line is made of, in its order.
#[derive(Clone, Copy, Debug, PartialEq, Eq)]
pub enum Item {
    /// A word that stands as it is, like a family's name.
    Literal(&'static str),
    /// A word that stands for something of the user's, like CODE.
    Word(&'static str),
    /// An option, and what its value stands for, if it has one.
    Option(&'static str, Option<&'static str>),
}

/// What a word of a usage line stands for.
#[derive(Clone, Copy, Debug, PartialEq, Eq)]
pub enum Kind {
    File,
    Folder,
    /// Numbers and lists of them.
    Numbers,
}

/// What a name in capital letters stands for; none for a name that no usage line has.
pub fn kind(name: &str) -> Option<Kind> {
    match name {
        "CODE" | "DATA" | "FILE" | "OUT" | "PLAN" | "STRIPES" => Some(Kind::File),
        "ARRAY" | "DIR" => Some(Kind::Folder),
        "BYTES" | "DISK" | "DISKS" | "K" | "L" | "LIST" | "P" | "R" | "SECONDS" | "W" => Some(Kind::Numbers),
        _ => None,
    }
}

/// The usage lines of a help text as they stand, from the tool's name on. A usage that is too long for a line goes on in the next.
pub fn lines(help: &'static str) -> impl Iterator<Item = &'static str> {
    let first = help.lines().skip_while(|line| !line.starts_with(USAGE));
    first.take_while(|line| !line.is_empty()).filter_map(|line| line.get(USAGE.len()..))
}

const USAGE: &str = "usage: ";

/// What follows the command's name in each of its usages.
pub fn items(command: &Command) -> Vec<Vec<Item>> {
    usages(command.help).into_iter().map(usage_items).collect()
}

fn usages(help: &'static str) -> Vec<Vec<&'static str>> {
    let mut usages: Vec<Vec<&str>> = Vec::new();
    for line in lines(help) {
        let words = line.split_whitespace();
        match usages.last_mut() {
            Some(usage) if line.starts_with(' ') => usage.extend(words),
            _ => usages.push(words.skip(2).collect()),
        }
    }
    usages
}

fn usage_items(words: Vec<&'static str>) -> Vec<Item> {
    let mut words = words.into_iter().map(|word| word.trim_matches(['[', ']'])).filter(|word| *word != "|");
    let mut items = Vec::new();
    while let Some(word) = words.next() {
        items.push(match word {
            option if option.starts_with('-') => {
                Item::Option(option, if takes_value(option) { words.next() } else { None })
            }
            word if word.starts_with(char::is_lowercase) => Item::Literal(word),
            word => Item::Word(word),
        });
    }
    items
}

/// A command's options with what their values stand for, in the order of the table.
pub fn options(command: &Command) -> Vec<(&'static str, Option<&'static str>)> {
    let items: Vec<Item> = items(command).into_iter().flatten().collect();
    let value = |name| {
        items.iter().find_map(|item| match item {
            Item::Option(named, value) if *named == name => *value,
            _ => None,
        })
    };
    command.options.iter().map(|name| (*name, value(*name))).collect()
}

/// The words that a command takes besides its options, place by place; more than one where its usage lines differ.
pub fn words(command: &Command) -> Vec<Vec<Item>> {
    let mut places: Vec<Vec<Item>> = Vec::new();
    for line in items(command) {
        let words = line.into_iter().filter(|item| !matches!(item, Item::Option(..)));
        for (place, word) in words.enumerate() {
            if places.len() == place {
                places.push(Vec::new());
            }
            if !places[place].contains(&word) {
                places[place].push(word);
            }
        }
    }
    places
}

/// What help says a command does.
pub fn summary(command: &Command) -> String {
    let mut listed = entries(help::ALL).into_iter();
    listed.find_map(|(term, said)| (term == command.name).then_some(said)).unwrap_or_default()
}

/// What an option is for, up to the first stop: as the command's help says it, or that of another command, or as it is said here.
pub fn purpose(command: &Command, option: &str) -> String {
    let listed = |command: &Command| {
        let mut entries = entries(command.help).into_iter();
        entries.find_map(|(term, said)| (term.split(' ').next() == Some(option)).then_some(said))
    };
    let said = listed(command).or_else(|| COMMANDS.iter().find_map(listed));
    let said = said.unwrap_or_else(|| said_here(option).to_string());
    said.split([':', ';', '.']).next().unwrap_or_default().to_string()
}

fn said_here(option: &str) -> &'static str {
    match option {
        "-o" => "where it is written",
        "--symbol" => "the bytes of a symbol",
        "--in-place" => "replaces STRIPES",
        "--keep" => "works in this folder, and leaves it",
        _ => "",
    }
}

/// The entries of a text's lists: a term and what is said of it, in one line.
fn entries(text: &'static str) -> Vec<(&'static str, String)> {
    let mut entries: Vec<(&str, String)> = Vec::new();
    for line in text.lines() {
        match (term(line), entries.last_mut()) {
            (Some((term, said)), _) => entries.push((term, said.to_string())),
            (None, Some((_, said))) if line.starts_with("   ") => *said += &format!(" {}", line.trim_start()),
            _ => {}
        }
    }
    entries
}

/// A line that begins an entry of a list: `  term  what is said`, or an option and its value with what is said of it.
pub fn term(line: &'static str) -> Option<(&'static str, &'static str)> {
    let entry = line.strip_prefix("  ").filter(|entry| !entry.starts_with(' '))?;
    let words =
        if !entry.starts_with('-') { None } else { Some(1 + usize::from(takes_value(entry.split(' ').next()?))) };
    let end = match words {
        None => entry.find("  ")?,
        Some(words) => entry.match_indices(' ').nth(words - 1)?.0,
    };
    Some((&entry[..end], entry[end..].trim_start()))
}

#[cfg(test)]
mod tests {
    use super::{items, kind, options, purpose, summary, usages, Item};
    use crate::arguments::takes_value;
    use crate::commands::COMMANDS;
    use std::collections::BTreeSet;

    #[test]
    fn usage_lines_have_the_options_of_the_table() {
        for command in COMMANDS {
            let named = items(command).into_iter().flatten().filter_map(|item| match item {
                Item::Option(name, _) => Some(name),
                _ => None,
            });
            let named: BTreeSet<&str> = named.collect();
            assert_eq!(named, command.options.iter().copied().collect(), "{}", command.name);
        }
    }

    #[test]
    fn a_usage_goes_on_in_the_next_line() {
        let help = "usage: navorzim show CODE\n           [--wait SECONDS]\n       navorzim show PLAN\n\nDraws.\n";
        assert_eq!(usages(help), [vec!["CODE", "[--wait", "SECONDS]"], vec!["PLAN"]]);
    }

    #[test]
    fn an_option_has_a_value_if_its_usage_line_shows_one() {
        for (option, value) in COMMANDS.iter().flat_map(options) {
            assert_eq!(value.is_some(), takes_value(option), "{option}");
        }
    }

    #[test]
    fn every_command_and_option_is_explained() {
        for command in COMMANDS {
            assert!(!summary(command).is_empty(), "{}", command.name);
            for (option, _) in options(command) {
                assert!(!purpose(command, option).is_empty(), "{} {option}", command.name);
            }
        }
    }

    #[test]
    fn every_name_stands_for_something() {
        for item in COMMANDS.iter().flat_map(items).flatten() {
            if let Item::Word(name) | Item::Option(_, Some(name)) = item {
                assert!(kind(name).is_some(), "{name}");
            }
        }
    }
}
