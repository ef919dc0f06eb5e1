//! Writes survey files in the house columns, good or bad.

use independent::lines::{BEFORE_CASE, CASE_FORM};
use independent::{Header, Member, Storey, Survey};

/// A line in parts: each field's bytes as they will stand.
#[derive(Clone, Debug, PartialEq, Eq)]
pub struct Line {
    pub tag: u8,
    pub fields: Vec<Vec<u8>>,
    pub end: Vec<u8>,
}

impl Line {
    pub fn new(tag: u8, values: &[i128]) -> Line {
        Line {
            tag,
            fields: values.iter().map(|&v| number_field(v)).collect(),
            end: vec![b'\n'],
        }
    }

    /// Puts a number into a field, counted from 1.
    pub fn set(&mut self, field: usize, value: i128) {
        self.fields[field - 1] = number_field(value);
    }

    /// Puts any bytes into a field, counted from 1.
    pub fn set_raw(&mut self, field: usize, text: &[u8]) {
        self.fields[field - 1] = raw_field(text);
    }

    pub fn bytes(&self) -> Vec<u8> {
        let mut out = vec![self.tag];
        for field in &self.fields {
            out.extend_from_slice(field);
        }
        out.extend_from_slice(&self.end);
        out
    }
}

/// A number right-justified in 8 columns. One of more than 8 takes more.
pub fn number_field(value: i128) -> Vec<u8> {
    raw_field(value.to_string().as_bytes())
}

/// Bytes right-justified in 8 columns. More than 8 stay as they are.
pub fn raw_field(text: &[u8]) -> Vec<u8> {
    let mut out = vec![b' '; 8usize.saturating_sub(text.len())];
    out.extend_from_slice(text);
    out
}

/// The lines of a survey, whatever its values. Members go to the storeys by
/// their counts as far as there are any; what is left follows the last storey.
pub fn survey_lines(h: &Header, storeys: &[Storey], members: &[Member]) -> Vec<Line> {
    let mut lines = vec![Line::new(b'B', &h.values())];
    let mut rest = members.iter();
    for s in storeys {
        lines.push(Line::new(b'S', &s.values(h.form)));
        let count = s.count.min(members.len() as u64) as usize;
        for m in rest.by_ref().take(count) {
            lines.extend(member_lines(h.form, m));
        }
    }
    for m in rest {
        lines.extend(member_lines(h.form, m));
    }
    lines
}

/// The M line, in four cases with its D lines. In the old form the one case
/// stands before the last field.
pub fn member_lines(form: u64, m: &Member) -> Vec<Line> {
    let once = m.values();
    if form != CASE_FORM {
        let (before, after) = once.split_at(BEFORE_CASE);
        let values = [before, &m.cases[0].values(), after].concat();
        return vec![Line::new(b'M', &values)];
    }
    let mut lines = vec![Line::new(b'M', &once)];
    for (number, case) in (1..).zip(&m.cases) {
        lines.push(Line::new(b'D', &[&[number][..], &case.values()].concat()));
    }
    lines
}

pub fn file_of(lines: &[Line]) -> Vec<u8> {
    let mut out = Vec::new();
    for line in lines {
        out.extend(line.bytes());
    }
    out
}

pub fn write_survey(survey: &Survey) -> Vec<u8> {
    file_of(&survey_lines(
        &survey.header,
        &survey.storeys,
        &survey.members,
    ))
}
