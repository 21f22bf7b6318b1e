//! The pages of `docs/`: their sections, their tables, their blocks.

use std::fs;
use std::path::Path;

/// The text of a page.
pub fn read(name: &str) -> String {
    let path = Path::new(env!("CARGO_MANIFEST_DIR"))
        .join("../docs")
        .join(name);
    fs::read_to_string(path).expect("the page can be read")
}

/// The lines of a section, from its heading `## title` to the next.
pub fn section<'a>(page: &'a str, title: &str) -> Vec<&'a str> {
    let heading = format!("## {title}");
    let lines: Vec<&str> = page
        .lines()
        .skip_while(|line| *line != heading)
        .skip(1)
        .take_while(|line| !line.starts_with("## "))
        .collect();
    assert!(!lines.is_empty(), "there is no section {title}");
    lines
}

/// The lines of the block that begins with three backquotes and this word.
pub fn block<'a>(page: &'a str, word: &str) -> Vec<&'a str> {
    let begin = format!("```{word}");
    let lines: Vec<&str> = page
        .lines()
        .skip_while(|line| *line != begin)
        .skip(1)
        .take_while(|line| *line != "```")
        .collect();
    assert!(!lines.is_empty(), "there is no block {word}");
    lines
}

/// The rows of the tables with this header among some lines, cell by cell.
pub fn rows<'a>(lines: &[&'a str], header: &str) -> Vec<Vec<&'a str>> {
    let mut rows = Vec::new();
    let mut lines = lines.iter();
    while lines.any(|line| *line == header) {
        let table = lines.by_ref().skip(1);
        rows.extend(table.map_while(|line| cells(line)));
    }
    rows
}

/// The cells of a row; none if the line is no row.
fn cells(line: &str) -> Option<Vec<&str>> {
    let inner = line.strip_prefix("| ")?.strip_suffix('|')?;
    Some(inner.split('|').map(str::trim).collect())
}

/// What stands in a cell's code span, which is all of the cell.
pub fn code(cell: &str) -> &str {
    cell.strip_prefix('`')
        .and_then(|rest| rest.strip_suffix('`'))
        .unwrap_or_else(|| panic!("not a code span: {cell}"))
}
