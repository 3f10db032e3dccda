//! The man page, made of the help texts: `navorzim man` prints it, and the installation writes it.
use crate::commands::COMMANDS;
use crate::{help, usage};
use std::fmt::Write;

/// The options that no command's own help explains.
const OPTIONS: &[(&str, &str)] = &[
    ("-h, --help", "says how the command is used"),
    ("-V, --version", "in place of a command: prints the version"),
    ("-o FILE, --output FILE", "two names of one option: where the command writes"),
];

/// The page navorzim(1), in the macros of man(7).
pub fn page() -> String {
    let mut page = String::new();
    write_head(&mut page);
    write_synopsis(&mut page);
    write_description(&mut page);
    write_commands(&mut page);
    write_options(&mut page);
    let _ = writeln!(page, ".SH EXIT STATUS\n{}", lines(exit_status()));
    page
}

/// The name, and in a line what it is: the first of the help.
fn write_head(page: &mut String) {
    let version = env!("CARGO_PKG_VERSION");
    let mut title = help::ALL.lines().next().unwrap_or_default().trim_end_matches('.').to_string();
    title[..1].make_ascii_lowercase();
    let _ = writeln!(page, ".TH NAVORZIM 1 \"\" \"navorzim {version}\" \"User Commands\"\n.nh\n.ad l");
    let _ = writeln!(page, ".SH NAME\nnavorzim \\- {}", text(&title));
}

fn write_synopsis(page: &mut String) {
    let commands = COMMANDS.iter().flat_map(|command| usage::lines(command.help));
    let _ = writeln!(page, ".SH SYNOPSIS\n.nf");
    for line in commands.chain(["navorzim help [COMMAND]", "navorzim --help", "navorzim --version"]) {
        let _ = writeln!(page, "{}", marked(line));
    }
    let _ = writeln!(page, ".fi");
}

/// The paragraphs of the help but its title, the usage and the exit status, which stand elsewhere on the page.
fn write_description(page: &mut String) {
    let _ = writeln!(page, ".SH DESCRIPTION");
    for paragraph in help_paragraphs().skip(1) {
        if !paragraph.starts_with("usage: ") && !paragraph.starts_with(EXIT_STATUS) {
            write_paragraph(page, paragraph);
        }
    }
}

fn write_commands(page: &mut String) {
    let _ = writeln!(page, ".SH COMMANDS");
    for command in COMMANDS {
        let _ = writeln!(page, ".SS navorzim {}", command.name);
        for paragraph in command.help.trim_end().split("\n\n") {
            write_paragraph(page, paragraph);
        }
    }
}

fn write_options(page: &mut String) {
    let _ = writeln!(page, ".SH OPTIONS\nThese go with more than one command.");
    for (option, said) in OPTIONS {
        write_term(page, option, said);
    }
}

const EXIT_STATUS: &str = "Exit status: ";

fn exit_status() -> &'static str {
    help_paragraphs().find_map(|paragraph| paragraph.strip_prefix(EXIT_STATUS)).unwrap_or_default()
}

fn help_paragraphs() -> impl Iterator<Item = &'static str> {
    help::ALL.trim_end().split("\n\n")
}

/// A paragraph of a help text: usage, examples, or text with or without a list.
fn write_paragraph(page: &mut String, paragraph: &'static str) {
    if paragraph.starts_with("usage: ") {
        let usage: Vec<String> = usage::lines(paragraph).map(marked).collect();
        let _ = writeln!(page, ".nf\n{}\n.fi", usage.join("\n"));
        return;
    }
    if paragraph.starts_with("example: ") {
        return write_examples(page, paragraph);
    }
    let mut begun = false;
    for line in paragraph.lines() {
        match usage::term(line) {
            Some((term, said)) => write_term(page, term, said),
            None => {
                if !begun {
                    let _ = writeln!(page, ".PP");
                }
                let _ = writeln!(page, "{}", text(line.trim_start()));
            }
        }
        begun = true;
    }
}

fn write_examples(page: &mut String, paragraph: &str) {
    let examples: Vec<String> = paragraph.lines().map(|line| text(line.trim_start_matches("example: "))).collect();
    let heading = if examples.len() == 1 { "Example:" } else { "Examples:" };
    let _ = writeln!(page, ".PP\n{heading}\n.PP\n.nf\n.RS 4\n{}\n.RE\n.fi", examples.join("\n"));
}

fn write_term(page: &mut String, term: &str, said: &str) {
    let _ = writeln!(page, ".TP\n{}\n{}", marked(term), text(said));
}

/// Lines of running text.
fn lines(said: &str) -> String {
    said.lines().map(text).collect::<Vec<_>>().join("\n")
}

/// A line of running text: what stands in backquotes is bold.
fn text(line: &str) -> String {
    let mut written = String::new();
    for (place, piece) in line.split('`').enumerate() {
        match place % 2 {
            0 => written += &plain(piece),
            _ => written += &format!("\\fB{}\\fR", plain(piece)),
        }
    }
    match written.starts_with(['.', '\'']) {
        true => format!("\\&{written}"),
        false => written,
    }
}

/// Usage and terms: what is typed as it stands is bold, what it stands for is slanted.
fn marked(line: &str) -> String {
    let mark = |word: &str| {
        let name = word.trim_matches(['[', ']', ',', '|']);
        let Some(at) = word.find(name).filter(|_| !name.is_empty()) else { return plain(word) };
        let font = if name.starts_with(char::is_uppercase) { 'I' } else { 'B' };
        format!("{}\\f{font}{}\\fR{}", &word[..at], plain(name), &word[at + name.len()..])
    };
    line.split(' ').map(mark).collect::<Vec<_>>().join(" ")
}

/// Letters that the page's language would read as its own.
fn plain(piece: &str) -> String {
    piece.replace('\\', "\\e").replace('-', "\\-").replace('×', "\\(mu")
}

#[cfg(test)]
mod tests {
    use super::{marked, page};
    use crate::commands::COMMANDS;
    use crate::usage;

    /// Of each option of the table the page has what it is called, with its value.
    #[test]
    fn the_page_has_every_command_and_option_of_the_table() {
        let page = page();
        for command in COMMANDS {
            assert!(page.contains(&format!(".SS navorzim {}\n", command.name)), "{}", command.name);
            for (option, value) in usage::options(command) {
                let shown = marked(&[option, value.unwrap_or_default()].join(" "));
                assert!(page.contains(shown.trim_end()), "{} {option}", command.name);
            }
        }
    }
}
