//! A picture as SVG, complete in itself: no script, no font and no style from elsewhere.
use crate::picture::{Cell, Mark, Picture};
use crate::sheets::members;
use crate::text::wrapped;
use std::fmt::Write as _;

const EDGE: f64 = 32.0;
const ROW_LABEL: f64 = 60.0;
const CELL_WIDTH: f64 = 92.0;
const CELL_HEIGHT: f64 = 48.0;
const GAP: f64 = 6.0;
/// More disks than this go into further bands below.
const MOST_BESIDE: usize = 12;
/// More steps than this are counted, not listed: nobody reads them in a picture.
const MOST_STEPS: usize = 240;
const FONT: &str = "'Segoe UI','Helvetica Neue','DejaVu Sans',Arial,sans-serif";
const INK: &str = "#1d2733";
const SOFT_INK: &str = "#3c4753";

/// How a mark looks: paper, line and ink. The ink stands out from its paper by 4.5 to 1 or more.
fn colours(mark: Mark) -> [&'static str; 3] {
    match mark {
        Mark::Data => ["#e8f1fd", "#5b8fd0", "#17406f"],
        Mark::Sum => ["#f1ebfc", "#8f70d0", "#472a80"],
        Mark::Lost | Mark::Wanted => ["#fdeaea", "#c43c38", "#8f1d1a"],
        Mark::Unwanted => ["#ffffff", "#b07f7d", "#744b49"],
        Mark::StillKnown => ["#fdeaea", "#c98482", "#853431"],
        Mark::BeyondHelp | Mark::Wrong => ["#b3302c", "#7d1c19", "#ffffff"],
        Mark::Read => ["#e2f5e8", "#2e8a50", "#145a2d"],
        Mark::Cancels => ["#fff3d6", "#b98718", "#5f4200"],
        Mark::Idle | Mark::Apart => ["#f6f7f9", "#a3adb8", "#525d69"],
    }
}

/// The line of a lost symbol is dashed, and dotted if the symbol is not wanted.
fn dashes(mark: Mark) -> &'static str {
    match mark {
        Mark::Lost | Mark::Wanted | Mark::StillKnown => r#" stroke-dasharray="5 3""#,
        Mark::Unwanted => r#" stroke-dasharray="1.5 3""#,
        Mark::Data | Mark::Sum | Mark::Read | Mark::Idle => "",
        Mark::Wrong | Mark::BeyondHelp | Mark::Cancels | Mark::Apart => "",
    }
}

/// The whole file.
pub fn draw(picture: &Picture) -> String {
    let beside = picture.disks.min(MOST_BESIDE);
    let grid = ROW_LABEL + beside as f64 * (CELL_WIDTH + GAP);
    let mut page = Page { body: String::new(), width: (2.0 * EDGE + grid).max(800.0), y: EDGE - 8.0 };
    page.heading(picture);
    let disks: Vec<usize> = (0..picture.disks).collect();
    for band in disks.chunks(MOST_BESIDE) {
        page.band(picture, band);
    }
    page.legend(picture);
    page.patterns(picture);
    page.sums(picture);
    page.steps(picture);
    page.finish(picture)
}

/// What is drawn so far, and how far down it reaches.
struct Page {
    body: String,
    width: f64,
    y: f64,
}

/// A kind of letters.
#[derive(Clone, Copy)]
enum Face {
    Plain,
    Bold,
    Mono,
}

impl Face {
    /// How wide a character is on average, as a part of its height, in DejaVu Sans, the widest of the fonts.
    fn width(self) -> f64 {
        match self {
            Face::Plain => 0.64,
            Face::Bold => 0.72,
            Face::Mono => 0.61,
        }
    }

    /// How many characters of a size fit.
    fn room(self, width: f64, size: f64) -> usize {
        (width / (size * self.width())) as usize
    }

    fn attribute(self) -> &'static str {
        match self {
            Face::Plain => "",
            Face::Bold => r#" font-weight="600""#,
            Face::Mono => r#" font-family="'DejaVu Sans Mono',Menlo,Consolas,monospace""#,
        }
    }
}

/// A line of text; its anchor is the place of x in it: `start`, `middle` or `end`.
struct Text<'a> {
    x: f64,
    y: f64,
    size: f64,
    ink: &'a str,
    face: Face,
    anchor: &'a str,
}

impl Page {
    fn text(&mut self, at: Text<'_>, words: &str) {
        let Text { x, y, size, ink, face, anchor } = at;
        let (words, face) = (escaped(words), face.attribute());
        let _ = writeln!(
            self.body,
            r#"<text x="{x:.1}" y="{y:.1}" font-size="{size}" fill="{ink}"{face} text-anchor="{anchor}">{words}</text>"#
        );
    }

    fn heading(&mut self, picture: &Picture) {
        self.paragraph("", &picture.title, 18.0, Face::Bold);
        self.y += 6.0;
        for note in &picture.notes {
            self.paragraph("", note, 14.0, Face::Plain);
        }
    }

    /// Words, broken into lines that fit the page; further lines begin below what follows the head.
    fn paragraph(&mut self, head: &str, words: &str, size: f64, face: Face) {
        let room = face.room(self.width - 2.0 * EDGE, size);
        let ink = if matches!(face, Face::Plain) { SOFT_INK } else { INK };
        for line in wrapped(words, head, room) {
            self.y += (size * 1.42).round();
            let indent = line.chars().take_while(|&c| c == ' ').count() as f64;
            let x = EDGE + indent * size * face.width();
            self.text(Text { x, y: self.y, size, ink, face, anchor: "start" }, line.trim_start());
        }
    }

    /// Some disks beside each other.
    fn band(&mut self, picture: &Picture, disks: &[usize]) {
        let left = EDGE + ROW_LABEL;
        let column = |place: usize| left + place as f64 * (CELL_WIDTH + GAP);
        self.y += 32.0;
        for (place, &disk) in disks.iter().enumerate() {
            self.disk_head(picture, disk, column(place) + CELL_WIDTH / 2.0);
        }
        self.y += if picture.role(0).is_some() { 26.0 } else { 10.0 };
        for row in 0..picture.rows {
            let y = self.y + CELL_HEIGHT / 2.0 + 4.5;
            let label = Text { x: left - 8.0, y, size: 13.0, ink: SOFT_INK, face: Face::Plain, anchor: "end" };
            self.text(label, &format!("row {row}"));
            for (place, &disk) in disks.iter().enumerate() {
                if let Some(cell) = picture.cell(disk, row) {
                    self.cell(cell, column(place));
                }
            }
            self.y += CELL_HEIGHT + GAP;
        }
    }

    /// A disk's number above its column and, where it is known, what the disk is for.
    fn disk_head(&mut self, picture: &Picture, disk: usize, x: f64) {
        let ink = if picture.lost.has(disk) { "#a3211d" } else { SOFT_INK };
        let at = Text { x, y: self.y, size: 13.0, ink, face: Face::Bold, anchor: "middle" };
        self.text(at, &format!("disk {disk}"));
        let role = match picture.role(disk) {
            None => return,
            Some("data") => "data".to_string(),
            Some(parity) => format!("parity {parity}"),
        };
        let at = Text { x, y: self.y + 16.0, size: 12.0, ink, face: Face::Plain, anchor: "middle" };
        self.text(at, &role);
    }

    fn cell(&mut self, cell: &Cell, x: f64) {
        let [paper, line, ink] = colours(cell.mark);
        let dashes = dashes(cell.mark);
        let (y, full) = (self.y, cell.spelled(" + "));
        let _ = writeln!(self.body, r#"<g><title>{} = {full} ({})</title>"#, cell.symbol, cell.meaning());
        let _ = writeln!(
            self.body,
            r#"<rect x="{x:.1}" y="{y:.1}" width="{CELL_WIDTH}" height="{CELL_HEIGHT}" rx="6" fill="{paper}" stroke="{line}" stroke-width="1.4"{dashes}/>"#
        );
        let number = Text { x: x + 6.0, y: y + 13.0, size: 10.0, ink, face: Face::Plain, anchor: "start" };
        self.text(number, &cell.symbol.to_string());
        if !cell.letters.is_empty() {
            let x = x + CELL_WIDTH - 6.0;
            let letters = Text { x, y: y + 13.0, size: 10.0, ink, face: Face::Bold, anchor: "end" };
            self.text(letters, &cell.letters);
        }
        self.label(cell, x + CELL_WIDTH / 2.0, ink);
        self.body.push_str("</g>\n");
    }

    /// A symbol by its name; a sum by its members where they fit, else by its size and its first members.
    fn label(&mut self, cell: &Cell, x: f64, ink: &str) {
        let full = cell.full();
        let one_line = fits(&full);
        let (words, y) = match one_line {
            true => (full, self.y + 31.0),
            false => (cell.short(), self.y + 27.0),
        };
        self.text(Text { x, y, size: 15.0, ink, face: Face::Bold, anchor: "middle" }, &words);
        if !one_line {
            let (y, size, face) = (self.y + 41.0, 10.0, Face::Plain);
            let members = first_members(cell, face.room(CELL_WIDTH - 8.0, size));
            self.text(Text { x, y, size, ink, face, anchor: "middle" }, &members);
        }
    }

    fn legend(&mut self, picture: &Picture) {
        self.y += 16.0;
        let mut x = EDGE;
        for (mark, cells) in picture.legend() {
            let words = format!("{} ({cells})", mark.meaning());
            let taken = 40.0 + 13.0 * Face::Plain.width() * words.chars().count() as f64;
            if x > EDGE && x + taken > self.width - EDGE {
                x = EDGE;
                self.y += 24.0;
            }
            let ([paper, line, _], dashes) = (colours(mark), dashes(mark));
            let y = self.y;
            let _ = writeln!(
                self.body,
                r#"<rect x="{x:.1}" y="{y:.1}" width="16" height="16" rx="4" fill="{paper}" stroke="{line}" stroke-width="1.4"{dashes}/>"#
            );
            let at = Text { x: x + 24.0, y: y + 12.5, size: 13.0, ink: SOFT_INK, face: Face::Plain, anchor: "start" };
            self.text(at, &words);
            x += taken;
        }
        self.y += 26.0;
        let mut explained = "Top left: the symbol's number. d3 is data symbol 3".to_string();
        if !picture.cells.iter().all(|cell| fits(&cell.full())) {
            explained.push_str("; +5 is a sum of 5, its first members below");
        }
        if !picture.patterns.is_empty() {
            explained.push_str(". Top right: the patterns that show on it");
        }
        self.paragraph("", &format!("{explained}."), 14.0, Face::Plain);
        self.y += 12.0;
    }

    /// Each pattern that has a letter.
    fn patterns(&mut self, picture: &Picture) {
        for pattern in &picture.patterns {
            self.paragraph("", pattern, 14.0, Face::Plain);
        }
    }

    /// Each symbol that comes back as the sum of those that are read for it.
    fn sums(&mut self, picture: &Picture) {
        if picture.sums.is_empty() {
            return;
        }
        self.y += 6.0;
        self.paragraph("", "What comes back, by symbol numbers", 14.0, Face::Bold);
        self.y += 4.0;
        for &(symbol, sum) in &picture.sums {
            let terms: Vec<String> = members(sum).map(|symbol| symbol.to_string()).collect();
            let terms = if terms.is_empty() { "zero".to_string() } else { terms.join(" + ") };
            self.paragraph(&format!("{symbol} = "), &terms, 13.0, Face::Mono);
        }
        self.y += 12.0;
    }

    fn steps(&mut self, picture: &Picture) {
        if picture.steps.is_empty() {
            return;
        }
        let left_out = picture.steps.len().saturating_sub(MOST_STEPS);
        let more = match left_out {
            0 => String::new(),
            _ => format!(" (the first {MOST_STEPS}, {left_out} more follow)"),
        };
        self.y += 6.0;
        self.paragraph("", &format!("Steps, each column downwards{more}"), 14.0, Face::Bold);
        self.y += 6.0;
        let digits = picture.steps.len().min(MOST_STEPS).saturating_sub(1).to_string().len();
        let shown = picture.steps.iter().take(MOST_STEPS).enumerate();
        let shown: Vec<String> = shown.map(|(number, step)| format!("{number:>digits$}: {step}")).collect();
        let widest = shown.iter().map(|step| step.chars().count()).max().unwrap_or(0);
        let (size, face) = (13.0, Face::Mono);
        let column = (widest + 2) as f64 * size * face.width();
        let columns = (((self.width - 2.0 * EDGE) / column) as usize).max(1);
        let height = shown.len().div_ceil(columns).max(picture.rows.min(5));
        for (number, step) in shown.iter().enumerate() {
            // The blanks before a number would be lost, so it stands where they end.
            let blanks = (step.chars().count() - step.trim_start().chars().count()) as f64;
            let x = EDGE + (number / height) as f64 * column + blanks * size * face.width();
            let y = self.y + ((number % height) as f64 + 1.0) * 19.0;
            self.text(Text { x, y, size, ink: INK, face, anchor: "start" }, step.trim_start());
        }
        self.y += height.min(shown.len()) as f64 * 19.0 + 8.0;
    }

    fn finish(self, picture: &Picture) -> String {
        let (width, height) = (self.width, self.y + EDGE - 8.0);
        format!(
            "<svg xmlns=\"http://www.w3.org/2000/svg\" width=\"{width:.0}\" height=\"{height:.0}\" \
             viewBox=\"0 0 {width:.0} {height:.0}\" font-family=\"{FONT}\" role=\"img\" \
             aria-labelledby=\"title desc\">\n<title id=\"title\">{}</title>\n<desc id=\"desc\">{}</desc>\n\
             <rect width=\"100%\" height=\"100%\" fill=\"#ffffff\"/>\n{}</svg>\n",
            escaped(&picture.title),
            escaped(&picture.described()),
            self.body
        )
    }
}

/// Whether a name goes into a cell in large letters.
fn fits(name: &str) -> bool {
    name.chars().count() <= Face::Bold.room(CELL_WIDTH - 8.0, 15.0)
}

/// As many members as fit, and dots if some don't.
fn first_members(cell: &Cell, room: usize) -> String {
    let all = cell.spelled(" ");
    if all.chars().count() <= room {
        return all;
    }
    let mut shown = String::new();
    for member in all.split(' ') {
        // A blank after each, and the dots.
        if shown.chars().count() + member.chars().count() + 2 > room {
            break;
        }
        shown.push_str(member);
        shown.push(' ');
    }
    format!("{shown}…")
}

/// Text for XML; what XML can't hold is shown as a question mark.
fn escaped(text: &str) -> String {
    let mut out = String::new();
    for c in text.chars() {
        match c {
            '&' => out.push_str("&amp;"),
            '<' => out.push_str("&lt;"),
            '>' => out.push_str("&gt;"),
            '"' => out.push_str("&quot;"),
            c if c.is_control() => out.push('?'),
            c => out.push(c),
        }
    }
    out
}
