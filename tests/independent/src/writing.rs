//! Writing a survey file from its records.

use crate::lines::{
    b_line, cases_of, d_line, m_line, s_line, Line, BEFORE_CASE, CASE_FORM, COLUMNS,
};
use crate::reading::LF;
use crate::records::{by_storey, check_survey, Header, Member, Refusal, Storey};

/// The survey file of these records, for a buffer of `buffer_len` bytes. Its
/// length is that of the bytes given back. The checks of judging, then 11.
pub fn write_survey(
    h: &Header,
    storeys: &[Storey],
    members: &[Member],
    buffer_len: usize,
) -> Result<Vec<u8>, Refusal> {
    check_survey(h, storeys, members)?;
    let file = survey_file(h, storeys, members);
    if file.len() > buffer_len {
        return Err(Refusal::of_record(11));
    }
    Ok(file)
}

/// The file of checked records: the B line, then each S with its M lines, in
/// four cases each M with its D lines.
fn survey_file(h: &Header, storeys: &[Storey], members: &[Member]) -> Vec<u8> {
    let mut file = Vec::new();
    write_line(&mut file, &b_line(), &h.values());
    for (s, its_members) in by_storey(storeys, members) {
        write_line(&mut file, &s_line(h.form), &s.values(h.form));
        for m in its_members {
            write_member(&mut file, h.form, m);
        }
    }
    file
}

fn write_member(file: &mut Vec<u8>, form: u64, m: &Member) {
    let once = m.values();
    if form != CASE_FORM {
        let (before, after) = once.split_at(BEFORE_CASE);
        let values = [before, &m.cases[0].values(), after].concat();
        return write_line(file, &m_line(form), &values);
    }
    write_line(file, &m_line(form), &once);
    for i in 0..cases_of(form) {
        let values = [&[i as i128 + 1][..], &m.cases[i].values()].concat();
        write_line(file, &d_line(), &values);
    }
}

/// Tag, fields of 8 columns, LF.
fn write_line(file: &mut Vec<u8>, kind: &Line, values: &[i128]) {
    file.push(kind.tag);
    for &value in values {
        file.extend_from_slice(written_field(value).as_bytes());
    }
    file.push(LF);
}

/// Right-justified, blanks to the left, a minus directly before the first
/// digit. A checked number has at most 7 characters: the first column is blank.
fn written_field(value: i128) -> String {
    format!("{value:>COLUMNS$}")
}

#[cfg(test)]
mod tests {
    use super::written_field;
    use crate::reading::written_number;

    #[test]
    fn fields_as_written() {
        assert_eq!(written_field(0), "       0");
        assert_eq!(written_field(7), "       7");
        assert_eq!(written_field(10), "      10");
        assert_eq!(written_field(9_999_999), " 9999999");
        assert_eq!(written_field(-1), "      -1");
        assert_eq!(written_field(-10), "     -10");
        assert_eq!(written_field(-999_999), " -999999");
    }

    /// From the least to the most that a field may hold: steps over the whole,
    /// and the numbers beside each power of ten.
    #[test]
    fn fields_read_back() {
        let mut values: Vec<i128> = (-999_999..=9_999_999).step_by(997).collect();
        for power in 0..=7 {
            let ten = 10_i128.pow(power);
            values.extend([ten - 1, ten, ten + 1, 1 - ten, -ten, -ten - 1]);
        }
        values.retain(|value| (-999_999..=9_999_999).contains(value));
        for value in values {
            let field = written_field(value);
            assert_eq!(written_number(field.as_bytes(), true), Some(value));
        }
    }
}
