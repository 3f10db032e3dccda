//! A picture as text for a terminal: a grid in box drawing characters, a legend, the sums that the grid shortens, the steps.
use crate::picture::{Cell, Mark, Picture};
use crate::system;
use std::fmt::Write as _;
use std::io::{stdout, IsTerminal};

/// How text is drawn.
#[derive(Clone, Copy, Debug)]
pub struct Style {
    pub colour: bool,
    pub width: usize,
}

impl Style {
    /// Colours only for a terminal whose owner doesn't object; the width is what COLUMNS says, or the terminal's own, or 80.
    pub fn of_stdout() -> Style {
        let unwanted = std::env::var_os("NO_COLOR").is_some_and(|value| !value.is_empty());
        let columns = std::env::var("COLUMNS").ok();
        let width = columns.and_then(|text| text.parse().ok()).or_else(|| system::columns(&stdout())).unwrap_or(80);
        Style { colour: stdout().is_terminal() && !unwanted, width: usize::clamp(width, 40, 400) }
    }
}

/// The whole picture, each line with its end.
pub fn draw(picture: &Picture, style: Style) -> String {
    let mut lines = wrapped(&picture.title, "", style.width);
    for note in &picture.notes {
        lines.extend(wrapped(note, "", style.width));
    }
    let labelling = Labelling::fitting(picture, style.width);
    for disks in labelling.blocks(picture, style.width) {
        lines.push(String::new());
        lines.extend(grid(picture, &labelling, &disks, style));
    }
    lines.push(String::new());
    lines.extend(legend(picture, &labelling, style));
    for pattern in &picture.patterns {
        lines.extend(wrapped(pattern, "", style.width));
    }
    lines.extend(sums(picture, &labelling, style.width));
    lines.extend(steps(picture, style.width));
    lines.iter().map(|line| format!("{line}\n")).collect()
}

fn sign(mark: Mark) -> char {
    match mark {
        Mark::Data | Mark::Sum => ' ',
        Mark::Lost | Mark::Wanted => '×',
        Mark::Unwanted => '-',
        Mark::Read => '●',
        Mark::Idle | Mark::Apart => '·',
        Mark::BeyondHelp => '≠',
        Mark::Wrong => '!',
        Mark::StillKnown => '=',
        Mark::Cancels => '○',
    }
}

/// The terminal's number for a colour.
fn colour(mark: Mark) -> &'static str {
    match mark {
        Mark::Data => "36",
        Mark::Sum => "35",
        Mark::Lost | Mark::Wanted | Mark::StillKnown => "31",
        Mark::Unwanted => "2;31",
        Mark::BeyondHelp | Mark::Wrong => "1;31",
        Mark::Read => "32",
        Mark::Cancels => "33",
        Mark::Idle | Mark::Apart => "2",
    }
}

fn painted(text: &str, mark: Mark, style: Style) -> String {
    if style.colour {
        format!("\x1b[{}m{text}\x1b[0m", colour(mark))
    } else {
        text.to_string()
    }
}

/// How much of a sum the cells say: as much as fits for all of them.
struct Labelling {
    label: fn(&Cell) -> String,
    /// columns of a label
    width: usize,
    /// columns of the largest symbol number
    digits: usize,
    /// columns of the patterns' letters
    letters: usize,
}

/// Columns before the first cell: `row 31 `.
const MARGIN: usize = 7;
/// Columns of the longest head: `disk 63 ×`.
const HEAD: usize = 9;

impl Labelling {
    fn fitting(picture: &Picture, width: usize) -> Labelling {
        let full = Labelling::by(picture, Cell::full);
        let middling = Labelling::by(picture, Cell::middling);
        let fits = |labelling: &Labelling| MARGIN + 1 + picture.disks * (labelling.cell_width() + 1) <= width;
        [full, middling].into_iter().find(fits).unwrap_or_else(|| Labelling::by(picture, Cell::short))
    }

    fn by(picture: &Picture, label: fn(&Cell) -> String) -> Labelling {
        let widths = picture.cells.iter().map(|cell| label(cell).chars().count());
        Labelling {
            label,
            width: widths.max().unwrap_or(0).max(2),
            digits: picture.cells.len().saturating_sub(1).to_string().len(),
            letters: picture.cells.iter().map(|cell| cell.letters.len()).max().unwrap_or(0),
        }
    }

    /// Columns between two lines of the grid: the sign with the letters, the number, the label, and a space after each.
    fn cell_width(&self) -> usize {
        (1 + self.letters + 1 + self.digits + 1 + self.width + 1).max(HEAD)
    }

    fn cell(&self, cell: &Cell, style: Style) -> String {
        let sign = format!("{}{:<width$}", sign(cell.mark), cell.letters, width = self.letters);
        let text = format!("{sign} {:>digits$} {}", cell.symbol, (self.label)(cell), digits = self.digits);
        let padded = format!("{text:<width$}", width = self.cell_width());
        painted(&padded, cell.mark, style)
    }

    /// The cells whose sum isn't said in full.
    fn shortened<'a>(&self, picture: &'a Picture) -> Vec<&'a Cell> {
        let shortened = |cell: &&Cell| (self.label)(cell) != cell.full();
        picture.cells.iter().filter(shortened).collect()
    }

    /// The disks of each grid, as many beside each other as fit.
    fn blocks(&self, picture: &Picture, width: usize) -> Vec<Vec<usize>> {
        let room = width.saturating_sub(MARGIN + 1);
        let beside = (room / (self.cell_width() + 1)).max(1);
        let disks: Vec<usize> = (0..picture.disks).collect();
        disks.chunks(beside).map(<[usize]>::to_vec).collect()
    }
}

fn grid(picture: &Picture, labelling: &Labelling, disks: &[usize], style: Style) -> Vec<String> {
    let width = labelling.cell_width();
    let heads = disks.iter().map(|disk| {
        let head = format!("disk {disk}{}", if picture.lost.has(*disk) { " ×" } else { "" });
        format!("{head:^width$} ")
    });
    let heads: String = heads.collect();
    let margin = " ".repeat(MARGIN);
    let mut lines = vec![format!("{margin} {}", heads.trim_end())];
    let roles: String =
        disks.iter().filter_map(|&disk| picture.role(disk)).map(|role| format!("{role:^width$} ")).collect();
    if !roles.is_empty() {
        lines.push(format!("{margin} {}", roles.trim_end()));
    }
    lines.push(rule(&margin, disks.len(), width, ['┌', '┬', '┐']));
    for row in 0..picture.rows {
        let mut line = format!("row {row:<2} │");
        for cell in disks.iter().filter_map(|&disk| picture.cell(disk, row)) {
            let _ = write!(line, "{}│", labelling.cell(cell, style));
        }
        lines.push(line);
    }
    lines.push(rule(&margin, disks.len(), width, ['└', '┴', '┘']));
    lines
}

fn rule(margin: &str, cells: usize, width: usize, [left, between, right]: [char; 3]) -> String {
    let dashes = vec!["─".repeat(width); cells];
    format!("{margin}{left}{}{right}", dashes.join(&between.to_string()))
}

fn legend(picture: &Picture, labelling: &Labelling, style: Style) -> Vec<String> {
    let mut cell = "A cell: the symbol's number and what it is; d3 is data symbol 3".to_string();
    if !labelling.shortened(picture).is_empty() {
        cell.push_str(", +5 a sum of 5");
    }
    if !picture.patterns.is_empty() {
        cell.push_str(". Before the number: the patterns that show on it");
    }
    let mut lines = wrapped(&format!("{cell}."), "", style.width);
    if picture.lost.count() > 0 {
        for (mark, cells) in picture.legend() {
            let sign = painted(&sign(mark).to_string(), mark, style);
            lines.push(format!("  {sign} {}: {cells}", mark.meaning()));
        }
    }
    lines
}

/// The sums in full where the grid has no room for them.
fn sums(picture: &Picture, labelling: &Labelling, width: usize) -> Vec<String> {
    let cells = labelling.shortened(picture);
    if cells.is_empty() {
        return Vec::new();
    }
    let mut lines = vec![String::new(), "Sums".to_string()];
    for cell in cells {
        let head = format!("  {:>digits$} = ", cell.symbol, digits = labelling.digits);
        lines.extend(wrapped(&cell.spelled(" + "), &head, width));
    }
    lines
}

/// The steps, downwards in as many columns as fit.
fn steps(picture: &Picture, width: usize) -> Vec<String> {
    if picture.steps.is_empty() {
        return Vec::new();
    }
    let digits = picture.steps.len().saturating_sub(1).to_string().len();
    let entries: Vec<String> =
        picture.steps.iter().enumerate().map(|(number, step)| format!("{number:>digits$}: {step}")).collect();
    let widest = entries.iter().map(|entry| entry.chars().count()).max();
    let column = widest.unwrap_or(0) + 3;
    let columns = (width.saturating_sub(2) / column).max(1);
    let height = entries.len().div_ceil(columns);
    let mut lines = vec![String::new(), "Steps".to_string()];
    for row in 0..height {
        let entries = entries.iter().skip(row).step_by(height);
        let line: String = entries.map(|entry| format!("{entry:<column$}")).collect();
        lines.push(format!("  {}", line.trim_end()));
    }
    lines
}

/// Lines of at most so many columns, broken at spaces; the first begins with `head`, the others below what follows it.
pub fn wrapped(text: &str, head: &str, width: usize) -> Vec<String> {
    let indent = " ".repeat(head.chars().count());
    let mut lines = Vec::new();
    let mut line = head.to_string();
    let mut empty = true;
    for word in text.split(' ') {
        let used = line.chars().count() + usize::from(!empty);
        if !empty && used + word.chars().count() > width {
            lines.push(std::mem::replace(&mut line, indent.clone()));
            empty = true;
        }
        if !empty {
            line.push(' ');
        }
        line.push_str(word);
        empty = false;
    }
    lines.push(line);
    lines
}
