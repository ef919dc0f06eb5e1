//! The documents, by their sections.
use std::fs;
use std::path::Path;

/// The text under a heading of a document in docs, to the next heading of the same rank or a higher one.
pub fn section(document: &str, heading: &str) -> String {
    let path = Path::new(env!("CARGO_MANIFEST_DIR")).join("../../docs").join(document);
    let text = fs::read_to_string(&path).unwrap_or_else(|e| panic!("{document}: {e}"));
    let mut lines = text.lines().skip_while(|line| *line != heading);
    assert!(lines.next().is_some(), "{document} has {heading}");
    lines.take_while(|line| rank(line).is_none_or(|found| Some(found) > rank(heading))).map(|line| format!("{line}\n")).collect()
}

/// How many # begin a heading; a line of an indented text is none.
fn rank(line: &str) -> Option<usize> {
    let text = line.trim_start_matches('#');
    text.starts_with(' ').then_some(line.len() - text.len()).filter(|&rank| rank > 0)
}

/// The indented texts of a section, without their indent.
pub fn indented(section: &str) -> Vec<String> {
    let mut texts = vec![String::new()];
    for line in section.lines() {
        match line.strip_prefix("    ") {
            Some(line) => texts.last_mut().expect("a text").extend([line, "\n"]),
            None => texts.push(String::new()),
        }
    }
    texts.retain(|text| !text.is_empty());
    texts
}

/// What stands between backticks in a section.
pub fn quoted(section: &str) -> Vec<&str> {
    section.split('`').skip(1).step_by(2).collect()
}

/// The rows of a section's tables that end in a number: what is quoted in the first cell, and the number.
pub fn numbered_rows(section: &str) -> Vec<(Vec<&str>, usize)> {
    let row = |line: &'_ str| line.strip_prefix("| ")?.strip_suffix(" |")?.rsplit_once(" | ").map(|(words, number)| (words.len(), number.replace(',', "")));
    let numbered = |line| row(line).and_then(|(words, number)| Some((words, number.parse().ok()?)));
    section.lines().filter_map(|line| numbered(line).map(|(words, number)| (quoted(&line[..2 + words]), number))).collect()
}
