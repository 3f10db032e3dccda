//! The installation: what `install.sh` writes and removes, a C and a C++ program that find the library by pkg-config alone, and the man
//! page and the completions, which name what help names.
mod folder;

use folder::{Folder, TOOL};
use std::collections::BTreeSet;
use std::fs;
use std::os::unix::fs::PermissionsExt;
use std::process::{Command, Output};

const ROOT: &str = concat!(env!("CARGO_MANIFEST_DIR"), "/..");
const VERSION: &str = env!("CARGO_PKG_VERSION");
/// Every file of an installation, below its folder.
fn installed() -> BTreeSet<String> {
    let soname = said(Command::new("sh").args([&format!("{ROOT}/shared.sh"), "--soname"]));
    let library =
        ["libnavorzim.so", soname.trim_end(), &format!("libnavorzim.so.{VERSION}")].map(|name| format!("lib/{name}"));
    let others = [
        "bin/navorzim",
        "include/navorzim.h",
        "lib/libnavorzim.a",
        "lib/pkgconfig/navorzim.pc",
        "share/bash-completion/completions/navorzim",
        "share/fish/vendor_completions.d/navorzim.fish",
        "share/man/man1/navorzim.1",
        "share/zsh/site-functions/_navorzim",
    ];
    library.into_iter().chain(others.map(String::from)).collect()
}

/// The files that are there, below a folder of the folder.
fn files(folder: &Folder, below: &str) -> BTreeSet<String> {
    let root = folder.0.join(below);
    let all = folder.contents().into_keys().filter(|path| !path.is_dir());
    all.filter_map(|path| Some(path.strip_prefix(&root).ok()?.to_str()?.to_string())).collect()
}

/// Runs the script in the folder, with a DESTDIR or an empty one.
fn install(folder: &Folder, destdir: &str, words: &[&str]) -> Output {
    let mut script = Command::new("sh");
    script.args(["-c", "umask 077; exec sh \"$@\"", "sh", &format!("{ROOT}/install.sh"), "--tool", TOOL]).args(words);
    script.current_dir(&folder.0).env("DESTDIR", destdir).output().expect("a shell")
}

/// What a program says, which must be done.
fn said(program: &mut Command) -> String {
    let output = program.output().unwrap_or_else(|error| panic!("{program:?}: {error}"));
    let text = String::from_utf8_lossy(&output.stdout).into_owned() + &String::from_utf8_lossy(&output.stderr);
    assert!(output.status.success(), "{program:?}: {text}");
    text
}

/// Whether a program is there; says so where what needs it isn't tried.
fn there(program: &str, what: &str) -> bool {
    let there = Command::new("sh").args(["-c", "command -v \"$1\"", "sh", program]).output().expect("a shell");
    if !there.status.success() {
        println!("not tried, since there is no {program}: {what}");
    }
    there.status.success()
}

/// The commands that help lists.
fn commands(folder: &Folder) -> Vec<String> {
    let listed = folder
        .done("help")
        .lines()
        .filter_map(|line| line.strip_prefix("  ")?.split(' ').next().map(String::from))
        .collect::<Vec<_>>();
    listed.into_iter().filter(|name| !name.is_empty() && name != "help").collect()
}

/// The options that a command's help names.
fn options(folder: &Folder, command: &str) -> BTreeSet<String> {
    let help = folder.done(&format!("{command} --help"));
    let words = help.split_whitespace().map(|word| word.trim_matches(['[', ']', '.', ',', ':', ';', '`', '(', ')']));
    words.filter(|word| word.starts_with('-') && word.len() > 1 && *word != "--").map(String::from).collect()
}

#[test]
fn programs_find_what_is_installed_by_pkg_config() {
    let folder = Folder::new();
    let prefix = folder.0.join("usr").display().to_string();
    let output = install(&folder, "", &["--prefix", &prefix]);
    assert!(output.status.success(), "{output:?}");
    assert_eq!(files(&folder, "usr"), installed());
    for (path, _) in folder.contents() {
        let mode = fs::metadata(&path).expect("a file or folder").permissions().mode();
        assert_eq!(mode & 0o444, 0o444, "{}: {mode:o}, though it is for everybody", path.display());
    }
    assert_eq!(said(Command::new(format!("{prefix}/bin/navorzim")).arg("--version")), format!("navorzim {VERSION}\n"));
    if there("pkg-config", "a C and a C++ program with the installed library") {
        let mut script = Command::new("sh");
        script.args(["-ec", BUILD, "sh", ROOT]).current_dir(&folder.0).env("LD_LIBRARY_PATH", format!("{prefix}/lib"));
        let text = said(script.env("PKG_CONFIG_LIBDIR", format!("{prefix}/lib/pkgconfig")));
        let cxx = usize::from(there("g++", "a C++ program with the installed library"));
        assert_eq!(text.matches("\ndisk 0 is back").count(), 2 + cxx, "{text}");
        assert!(text.starts_with(&format!("{VERSION}\n")), "{text}");
    }
    folder.put("usr/lib/other", b"somebody else's");
    let output = install(&folder, "", &["--prefix", &prefix, "--uninstall"]);
    assert!(output.status.success(), "{output:?}");
    assert_eq!(files(&folder, "usr"), BTreeSet::from(["lib/other".to_string()]));
}

/// The example for C, with the shared library, as C++ with it, and with the archive.
const BUILD: &str = r#"
pkg-config --modversion navorzim
cc -std=c99 -Wall -Wextra -Werror "$1/examples/c/rebuild.c" $(pkg-config --cflags --libs navorzim) -o shared
./shared
if command -v g++ >/dev/null; then
    g++ -std=c++17 -Wall -Wextra -Werror -x c++ "$1/examples/c/rebuild.c" -x none $(pkg-config --cflags --libs navorzim) -o cxx
    ./cxx
fi
mv usr/lib/libnavorzim.so away
cc -std=c99 -Wall -Wextra -Werror "$1/examples/c/rebuild.c" $(pkg-config --static --cflags --libs navorzim) -o static
mv away usr/lib/libnavorzim.so
LD_LIBRARY_PATH= ./static
"#;

#[test]
fn a_new_version_takes_the_place_of_an_older_one() {
    let folder = Folder::new();
    let prefix = folder.0.join("usr").display().to_string();
    fs::create_dir_all(folder.0.join("usr/lib/pkgconfig")).expect("a new folder");
    let soname = said(Command::new("sh").args([&format!("{ROOT}/shared.sh"), "--soname"]));
    let older = format!("usr/lib/{}.99", soname.trim_end());
    for name in [&older, "usr/lib/libnavorzim.so.99.0.0", "usr/lib/pkgconfig/navorzim.pc"] {
        folder.put(name, b"older");
    }
    std::os::unix::fs::symlink("libnavorzim.so.99.0.0", folder.0.join("usr/lib/libnavorzim.so")).expect("a link");
    for _ in 0..2 {
        let output = install(&folder, "", &["--prefix", &prefix]);
        assert!(output.status.success(), "{output:?}");
        // a program that asks for another soname still finds it
        let other = "lib/libnavorzim.so.99.0.0".to_string();
        assert_eq!(files(&folder, "usr"), installed().into_iter().chain([other]).collect());
        assert_eq!(folder.get("usr/lib/libnavorzim.so.99.0.0"), b"older");
        assert_eq!(folder.get("usr/lib/libnavorzim.so"), folder.get(&format!("usr/lib/libnavorzim.so.{VERSION}")));
    }
}

#[test]
fn a_package_is_made_below_destdir_and_does_not_name_it() {
    let folder = Folder::new();
    let stage = folder.0.join("stage of one").display().to_string();
    let words = ["--prefix=/opt/navorzim/", "--libdir=/opt/lib64"];
    let moved = |name: &String| match name.strip_prefix("lib/") {
        Some(name) => format!("lib64/{name}"),
        None => format!("navorzim/{name}"),
    };
    for destdir in [&stage, "stage of one"] {
        let output = install(&folder, destdir, &words);
        assert!(output.status.success(), "{output:?}");
        assert_eq!(files(&folder, "stage of one/opt"), installed().iter().map(moved).collect());
        let named = |bytes: &[u8]| bytes.windows(stage.len()).any(|window| window == stage.as_bytes());
        for (path, bytes) in folder.contents() {
            assert!(!named(&bytes), "{}", path.display());
        }
        let package = String::from_utf8(folder.get("stage of one/opt/lib64/pkgconfig/navorzim.pc")).expect("text");
        assert!(package.starts_with("prefix=/opt/navorzim\nlibdir=/opt/lib64\n"), "{package}");
        let output = install(&folder, destdir, &[&words[..], &["--uninstall"]].concat());
        assert!(output.status.success() && files(&folder, "stage of one").is_empty(), "{output:?}");
    }
}

#[test]
fn a_misused_installation_writes_nothing() {
    let folder = Folder::new();
    for (prefix, words, said) in [
        ("usr", &[][..], "'usr' isn't a path from the root"),
        ("", &[], "--prefix DIR is missing"),
        ("/a b", &[], "can't stand in navorzim.pc"),
        ("/usr", &["--libdir"], "--libdir needs a value"),
        ("/usr", &["--unistall"], "there is no option '--unistall'"),
    ] {
        let output = install(&folder, "", &[&["--prefix", prefix], words].concat());
        let err = String::from_utf8_lossy(&output.stderr);
        assert!(output.status.code() == Some(2) && err.contains(said), "{prefix} {words:?}: {err}");
    }
    let output = install(&folder, "", &["--prefix", &folder.0.join("usr").display().to_string(), "--tool", "missing"]);
    assert!(!output.status.success());
    assert!(folder.contents().is_empty());
}

#[test]
fn the_man_page_names_what_help_names() {
    let folder = Folder::new();
    let page = folder.done("man");
    let shown = ["\\fB", "\\fI", "\\fR", "\\&"].iter().fold(page.clone(), |text, mark| text.replace(mark, ""));
    let shown = shown.replace("\\-", "-").replace("\\(mu", "×");
    for command in commands(&folder) {
        let (_, rest) = shown.split_once(&format!("\n.SS navorzim {command}\n")).expect("a section");
        let section = rest.split("\n.S").next().expect("its text");
        for option in options(&folder, &command) {
            assert!(section.contains(&option), "{command} {option}");
        }
        hold_words(section, &folder.done(&format!("help {command}")));
    }
    hold_words(&shown, &folder.done("help"));
    folder.put("navorzim.1", page.as_bytes());
    if there("mandoc", "the man page's form") {
        let mut lint = Command::new("mandoc");
        let lint = lint.args(["-T", "lint", "-W", "warning", "navorzim.1"]).current_dir(&folder.0).output();
        let found = String::from_utf8_lossy(&lint.expect("mandoc").stdout).into_owned();
        assert!(found.lines().all(|line| line.contains("missing date")), "{found}");
    }
    if there("man", "how the man page is shown") {
        let mut man = Command::new("man");
        man.args(["--warnings=w", "-l", "navorzim.1"]).current_dir(&folder.0);
        let text = said(man.env("MANPAGER", "cat").env("MANROFFOPT", "-c").env("LC_ALL", "C.UTF-8"));
        assert!(text.contains("--in-place") && text.contains("N = n × r") && !text.contains("warning"), "{text}");
    }
}

/// No word of a help text is lost.
fn hold_words(page: &str, help: &str) {
    let words =
        |text: &str| text.split_whitespace().map(|word| word.replace('`', "").to_lowercase()).collect::<Vec<_>>();
    let there: BTreeSet<String> = words(page).into_iter().collect();
    for word in words(help) {
        let found = there.contains(&word) || there.contains(word.trim_end_matches('.'));
        assert!(found || ["usage:", "example:", ".."].contains(&&*word), "{word}");
    }
}

#[test]
fn completions_know_every_command_and_option() {
    let folder = Folder::new();
    let commands = commands(&folder);
    for shell in ["bash", "zsh", "fish"] {
        let script = folder.done(&format!("completions {shell}"));
        for command in &commands {
            assert!(script.contains(command), "{shell} {command}");
            for option in options(&folder, command) {
                let name = option.trim_start_matches('-');
                let fish = [format!("-l {name}"), format!("-s {name}")];
                assert!(script.contains(&option) || fish.iter().any(|word| script.contains(word)), "{shell} {option}");
            }
        }
        folder.put(shell, script.as_bytes());
        if there(shell, &format!("the completions for {shell}")) {
            said(Command::new(shell).args(["-n", shell]).current_dir(&folder.0));
        }
    }
    for line in ["completions", "completions tcsh", "completions bash zsh", "man bash"] {
        folder.misused(line);
    }
}

/// What bash offers for a line's last word, in a folder with its completions.
fn offered(folder: &Folder, line: &str) -> String {
    let words = std::iter::once("navorzim").chain(line.split(' '));
    said(Command::new("bash").args(["-c", BASH, "bash"]).args(words).current_dir(&folder.0)).trim_end().to_string()
}

const BASH: &str = r#"
source ./bash
COMP_WORDS=("$@")
COMP_CWORD=$(($# - 1))
_navorzim
echo "${COMPREPLY[*]}"
"#;

/// A folder with a shell's completions, a file and a folder; none where the shell isn't there.
fn completing(shell: &str) -> Option<Folder> {
    let folder = there(shell, &format!("completing in {shell}")).then(Folder::new)?;
    folder.put(shell, folder.done(&format!("completions {shell}")).as_bytes());
    folder.put("code.sheet", b"");
    fs::create_dir(folder.0.join("array")).expect("a new folder");
    Some(folder)
}

#[test]
fn bash_completes_a_line() {
    let Some(folder) = completing("bash") else { return };
    for (line, all) in [
        ("re", "restore rebuild"),
        ("restore --d", "--dry-run"),
        ("status --re", "--read"),
        ("family ", "single-parity liberation row-diagonal evenodd"),
        ("plan co", "code.sheet"),
        ("plan code.sheet co", ""),
        ("plan --want 0 co", "code.sheet"),
        ("rebuild code.sheet 0 co", "code.sheet"),
        ("encode --symbol co", ""),
        ("encode --wait co", ""),
        ("encode --wait 5 co", "code.sheet"),
        ("plan code.sheet 0 -o co", "code.sheet"),
        ("status ", "array"),
        ("demo --keep ", "array"),
        ("help sp", "split"),
        // --symbol=64, which bash takes for three words
        ("encode --symbol = 64 co", "code.sheet"),
        ("plan code.sheet 0 --output = co", "code.sheet"),
        ("demo --keep =", "array"),
    ] {
        assert_eq!(offered(&folder, line), all, "{line}");
    }
}

#[test]
fn bash_offers_every_command_and_the_options_of_its_usage() {
    let Some(folder) = completing("bash") else { return };
    let names = commands(&folder);
    assert_eq!(offered(&folder, ""), format!("{} help --help --version", names.join(" ")));
    for name in names {
        let offered = offered(&folder, &format!("{name} -"));
        let help = folder.done(&format!("help {name}"));
        let words = help.split("\n\n").next().expect("the usage").split_whitespace();
        for option in words.map(|word| word.trim_matches(['[', ']'])).filter(|word| word.starts_with('-')) {
            assert!(offered.split(' ').any(|word| word == option), "{name} {option}");
        }
    }
}

#[test]
fn fish_completes_a_line() {
    let Some(folder) = completing("fish") else { return };
    let lines = ["re", "restore --d", "status --re", "status a", "family ev", "plan --want 0 co"];
    let script = lines.map(|line| format!("complete -C 'navorzim {line}'; ")).concat();
    let found = said(Command::new("fish").args(["-N", "-c", &format!("source fish; {script}")]).current_dir(&folder.0));
    let found: Vec<&str> = found.lines().filter_map(|line| line.split('\t').next()).collect();
    assert_eq!(found, ["rebuild", "restore", "--dry-run", "--read", "array/", "evenodd", "code.sheet"]);
}

#[test]
fn zsh_completes_a_line() {
    let Some(folder) = completing("zsh") else { return };
    folder.put(".zshrc", ZSH.as_bytes());
    for (line, all) in [
        ("statu", "status"),
        ("restore --dr", "restore --dry-run"),
        ("family eve", "family evenodd"),
        ("plan cod", "plan code.sheet"),
        ("plan --want=0 cod", "plan --want=0 code.sheet"),
        ("plan --want 0 cod", "plan --want 0 code.sheet"),
        ("demo --keep=arr", "demo --keep=array/"),
    ] {
        let mut zsh = Command::new("timeout");
        zsh.args(["60", "zsh", "-f", "-c", ZSH_TYPED, "zsh", line]).current_dir(&folder.0).env("ZDOTDIR", &folder.0);
        let found = said(&mut zsh);
        assert!(found.contains(&format!("<navorzim {all}")), "{line}: {found:?}");
    }
}

/// A zsh that says when a line can be typed, and at Control-X prints what has come of it.
const ZSH: &str = r#"
PS1= RPS1=
autoload -U compinit
compinit -u -D
source ./zsh
begin() { print -r -- ready }
show() { print -r -- "<$BUFFER>" }
zle -N zle-line-init begin
zle -N show
bindkey '^X' show
"#;

/// Types a line in such a zsh, at a terminal of its own.
const ZSH_TYPED: &str = r#"
zmodload zsh/zpty
zpty -b shell zsh -d -i
zpty -r shell begun '*ready*'
zpty -n -w shell "navorzim $1"$'\t'$'\C-x'
zpty -r shell shown '*<navorzim*>*'
print -r -- "$shown"
zpty -d shell
"#;
