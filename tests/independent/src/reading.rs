//! Reading a survey file, line by line and field by field.

use crate::lines::{
    b_line, cases_of, d_line, m_line, s_line, Line, BEFORE_CASE, CASES, CASE_FORM, COLUMNS,
    LOAD_CASE, OLD_FORM,
};
use crate::records::{
    member_number_repeated, not_low_rise, short_above_long, storey_number_repeated, Header,
    LoadCase, Member, Refusal, Storey,
};

pub(crate) const LF: u8 = 10;
const BLANK: u8 = 32;

/// What a file holds: the members of all storeys, in survey order.
#[derive(Clone, Debug, Default, PartialEq, Eq)]
pub struct Survey {
    pub header: Header,
    pub storeys: Vec<Storey>,
    pub members: Vec<Member>,
}

/// Reads a survey into rows for so many storeys and members.
pub fn read(bytes: &[u8], storey_rows: usize, member_rows: usize) -> Result<Survey, Refusal> {
    let mut file = Lines {
        rest: bytes,
        line: 0,
    };
    let mut survey = Survey::default();

    survey.header = read_header(&mut file)?;
    let form = form_of_first_storey(&file);
    survey.header.form = form;
    for _ in 0..survey.header.storey_count {
        let storey = read_storey(&mut file, form, storey_rows, &survey.storeys)?;
        survey.storeys.push(storey);
        let first = survey.members.len();
        for _ in 0..storey.count {
            let member = read_member(&mut file, form, member_rows, &survey.members, first)?;
            survey.members.push(member);
        }
    }
    file.end()?;
    Ok(survey)
}

/// 1, then 2 and 3 of each field, then 7. The form is not in the line.
fn read_header(file: &mut Lines) -> Result<Header, Refusal> {
    let text = file.next(&b_line())?;
    let line = file.line;
    let header = Header::from_values(&values(text, line, &b_line())?, 0);
    if not_low_rise(&header) {
        return Err(Refusal::at(7, line));
    }
    Ok(header)
}

/// The form, by the length of the line to come. A line that is the first storey
/// of neither form is refused when it is read.
fn form_of_first_storey(file: &Lines) -> u64 {
    if file.next_is(&s_line(CASE_FORM)) {
        CASE_FORM
    } else {
        OLD_FORM
    }
}

/// 1, then 8, then 2 and 3 of each field, then 5.
fn read_storey(
    file: &mut Lines,
    form: u64,
    rows: usize,
    earlier: &[Storey],
) -> Result<Storey, Refusal> {
    let text = file.next(&s_line(form))?;
    let line = file.line;
    if earlier.len() >= rows {
        return Err(Refusal::at(8, line));
    }
    let storey = Storey::from_values(&values(text, line, &s_line(form))?, form);
    if storey_number_repeated(earlier, storey.number) {
        return Err(Refusal::at(5, line));
    }
    Ok(storey)
}

/// 1, then 8, then 2 and 3 of each field, then 4, then 5; then the D lines.
/// The storey's own members begin at `first` among the earlier ones.
fn read_member(
    file: &mut Lines,
    form: u64,
    rows: usize,
    earlier: &[Member],
    first: usize,
) -> Result<Member, Refusal> {
    let text = file.next(&m_line(form))?;
    let line = file.line;
    if earlier.len() >= rows {
        return Err(Refusal::at(8, line));
    }
    let mut once = values(text, line, &m_line(form))?;
    let mut cases = [LoadCase::default(); CASES];
    if form != CASE_FORM {
        let within: Vec<i128> = once
            .drain(BEFORE_CASE..BEFORE_CASE + LOAD_CASE.len())
            .collect();
        cases[0] = LoadCase::from_values(&within);
    }
    let mut member = Member::from_values(&once, cases);
    if short_above_long(&member) {
        return Err(Refusal::at(4, line));
    }
    if member_number_repeated(&earlier[first..], member.number) {
        return Err(Refusal::at(5, line));
    }
    if form == CASE_FORM {
        for i in 0..cases_of(form) {
            member.cases[i] = read_case(file, i + 1)?;
        }
    }
    Ok(member)
}

/// A D line: 1, then 2 and 3 of each field, then 12.
fn read_case(file: &mut Lines, case: usize) -> Result<LoadCase, Refusal> {
    let text = file.next(&d_line())?;
    let line = file.line;
    let values = values(text, line, &d_line())?;
    if values[0] != case as i128 {
        return Err(Refusal::at(12, line));
    }
    Ok(LoadCase::from_values(&values[1..]))
}

/// The numbers in a line's fields: 2 and 3 of each from the left.
fn values(text: &[u8], line: u64, kind: &Line) -> Result<Vec<i128>, Refusal> {
    let mut values = Vec::new();
    for (i, field) in kind.fields.iter().enumerate() {
        let value = number(text, i, field.minus_may_stand()).ok_or(Refusal::at(2, line))?;
        if !field.allows(value, &values) {
            return Err(Refusal::at(3, line));
        }
        values.push(value);
    }
    Ok(values)
}

/// The lines still to come. `line` is the number of the last one taken.
struct Lines<'a> {
    rest: &'a [u8],
    line: u64,
}

impl<'a> Lines<'a> {
    /// Whether the next line has this tag and length. It ends at its first LF.
    fn next_is(&self, kind: &Line) -> bool {
        let length = kind.length();
        let end = self.rest.iter().take(length).position(|&b| b == LF);
        end == Some(length - 1) && self.rest[0] == kind.tag
    }

    /// The next line's fields. 1 unless the line has this tag and length.
    fn next(&mut self, kind: &Line) -> Result<&'a [u8], Refusal> {
        self.line += 1;
        if !self.next_is(kind) {
            return Err(Refusal::at(1, self.line));
        }
        let (text, rest) = self.rest.split_at(kind.length());
        self.rest = rest;
        Ok(&text[1..kind.length() - 1])
    }

    /// 6 if bytes follow.
    fn end(&self) -> Result<(), Refusal> {
        if self.rest.is_empty() {
            Ok(())
        } else {
            Err(Refusal::at(6, self.line + 1))
        }
    }
}

/// The number in field `i` (from 0) of a line's fields; none if it is not
/// written as the paper says.
fn number(text: &[u8], i: usize, minus_may_stand: bool) -> Option<i128> {
    written_number(&text[i * COLUMNS..(i + 1) * COLUMNS], minus_may_stand)
}

pub(crate) fn written_number(field: &[u8], minus_may_stand: bool) -> Option<i128> {
    if field[0] != BLANK {
        return None;
    }
    let start = field.iter().position(|&b| b != BLANK)?;
    let written = &field[start..];
    if minus_may_stand && written[0] == b'-' {
        let value = digits(&written[1..])?;
        return if value == 0 { None } else { Some(-value) };
    }
    digits(written)
}

/// One digit or more, no leading zero but in `0` itself.
fn digits(text: &[u8]) -> Option<i128> {
    if text.is_empty() || (text[0] == b'0' && text.len() > 1) {
        return None;
    }
    let mut value = 0;
    for &b in text {
        if !b.is_ascii_digit() {
            return None;
        }
        value = value * 10 + (b - b'0') as i128;
    }
    Some(value)
}

#[cfg(test)]
mod tests {
    use super::written_number;

    #[test]
    fn fields_well_written() {
        assert_eq!(written_number(b"       0", false), Some(0));
        assert_eq!(written_number(b"       7", false), Some(7));
        assert_eq!(written_number(b" 9999999", false), Some(9_999_999));
        assert_eq!(written_number(b" 1000000", true), Some(1_000_000));
        assert_eq!(written_number(b" -999999", true), Some(-999_999));
        assert_eq!(written_number(b"      -1", true), Some(-1));
        assert_eq!(written_number(b"       0", true), Some(0));
    }

    #[test]
    fn fields_badly_written() {
        for bad in [
            b"        ",
            b"00000000",
            b"12345678",
            b"      00",
            b"      05",
            b"      +5",
            b"     5  ",
            b"      5 ",
            b"5       ",
            b"     1 2",
            b"     1.0",
            b"     1e3",
            b"       -",
            b"      -0",
            b"     -05",
            b"     - 5",
            b"     --5",
            b"     5-5",
            b"\t      5",
            b"      \t5",
            b"\0      5",
            b"      5\r",
            b"       a",
            b"-1234567",
            b" 000000 ",
            b"     0x1",
            b"     1,0",
        ] {
            assert_eq!(written_number(bad, false), None, "{:?}", bad);
            assert_eq!(written_number(bad, true), None, "{:?}", bad);
        }
        assert_eq!(written_number(b"      -5", false), None);
    }
}
