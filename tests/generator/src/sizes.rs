//! The bytes of survey files and sheets in both forms.

use independent::lines::{b_line, cases_of, d_line, m_line, s_line, CASE_FORM};
use independent::Survey;

/// The most bytes that are determined.
pub const INPUT_MOST: usize = 65_536;

/// The most members of a storey.
const STOREY_MOST: usize = 200;

/// A member with its D lines.
pub fn member_bytes(form: u64) -> usize {
    let cases = if form == CASE_FORM {
        cases_of(form) * d_line().length()
    } else {
        0
    };
    m_line(form).length() + cases
}

pub fn bytes_of(form: u64, storeys: usize, members: usize) -> usize {
    b_line().length() + storeys * s_line(form).length() + members * member_bytes(form)
}

/// The bytes of a survey's file.
pub fn file_len(survey: &Survey) -> usize {
    bytes_of(
        survey.header.form,
        survey.storeys.len(),
        survey.members.len(),
    )
}

/// The most members in so many storeys of a file that is determined.
pub fn members_most(form: u64, storeys: usize) -> usize {
    let fit = (INPUT_MOST - bytes_of(form, storeys, 0)) / member_bytes(form);
    fit.min(STOREY_MOST * storeys)
}

/// The bytes of a survey's sheet: tag, fields of 12 columns and LF, in four
/// cases one field more.
pub fn sheet_len(survey: &Survey) -> usize {
    let form = survey.header.form;
    let case_field = usize::from(form == CASE_FORM);
    let line = |fields| 1 + 12 * (fields + case_field) + 1;
    let of_case = line(7) * survey.members.len() + line(6) * survey.storeys.len();
    cases_of(form) * of_case + 26
}
