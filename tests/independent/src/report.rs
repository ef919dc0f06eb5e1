//! The printed sheet and the whole program.

use crate::lines::CASE_FORM;
use crate::members::MemberFinding;
use crate::reading::read;
use crate::records::{by_storey, check_survey, Header, Member, Refusal, Storey};
use crate::storeys::{
    find_building, find_storey, BuildingFinding, StoreyCaseFinding, StoreyFinding,
};

const COLUMNS: usize = 12;

const INPUT_MOST: usize = 65_536;
const STOREY_ROWS: usize = 10;
const MEMBER_ROWS: usize = 320;

/// The sheet of a survey, for a buffer of `buffer_len` bytes.
pub fn report(
    h: &Header,
    storeys: &[Storey],
    members: &[Member],
    buffer_len: usize,
) -> Result<Vec<u8>, Refusal> {
    check_survey(h, storeys, members)?;
    let mut sheet = Vec::new();
    let mut storey_findings = Vec::new();
    for (s, its_members) in by_storey(storeys, members) {
        let (finding, found) = find_storey(h.knowledge, h.form, s, its_members);
        for (i, its_found) in found.iter().enumerate() {
            let first = first_fields(h.form, i);
            for (m, f) in its_members.iter().zip(its_found) {
                write_member(&mut sheet, &first, m.number, f);
            }
            write_storey(&mut sheet, &first, &finding, &finding.cases[i]);
        }
        storey_findings.push(finding);
    }
    write_building(&mut sheet, &find_building(h, &storey_findings));
    if sheet.len() > buffer_len {
        return Err(Refusal::of_record(9));
    }
    Ok(sheet)
}

/// The program: standard input's bytes to standard output's bytes.
pub fn determine(input: &[u8]) -> Vec<u8> {
    match sheet_of(input) {
        Ok(sheet) => sheet,
        Err(refusal) => refusal_line(refusal),
    }
}

fn sheet_of(input: &[u8]) -> Result<Vec<u8>, Refusal> {
    if input.len() > INPUT_MOST {
        return Err(Refusal { number: 8, line: 0 });
    }
    let survey = read(input, STOREY_ROWS, MEMBER_ROWS)?;
    report(&survey.header, &survey.storeys, &survey.members, usize::MAX)
}

fn refusal_line(refusal: Refusal) -> Vec<u8> {
    let mut out = Vec::new();
    write_line(&mut out, b'E', &[refusal.number as u64, refusal.line]);
    out
}

/// What stands first in the lines of case `i`, from 0: its number, and nothing
/// in the old form.
fn first_fields(form: u64, i: usize) -> Vec<u64> {
    if form == CASE_FORM {
        vec![i as u64 + 1]
    } else {
        vec![]
    }
}

fn write_member(out: &mut Vec<u8>, first: &[u64], number: u64, f: &MemberFinding) {
    let fields = [
        number,
        f.class as u64,
        f.m,
        f.m_limit,
        f.rotation,
        f.rotation_limit,
        f.over as u64,
    ];
    write_line(out, b'M', &[first, &fields].concat());
}

/// Risky as in the case.
fn write_storey(out: &mut Vec<u8>, first: &[u64], s: &StoreyFinding, f: &StoreyCaseFinding) {
    let fields = [s.number, s.sum, s.c, f.p, f.w, f.risky as u64];
    write_line(out, b'S', &[first, &fields].concat());
}

fn write_building(out: &mut Vec<u8>, f: &BuildingFinding) {
    write_line(out, b'B', &[f.tilt_above as u64, f.risky as u64]);
}

/// Tag, fields right-justified in 12 columns, LF.
fn write_line(out: &mut Vec<u8>, tag: u8, fields: &[u64]) {
    out.push(tag);
    for value in fields {
        let digits = value.to_string();
        for _ in digits.len()..COLUMNS {
            out.push(b' ');
        }
        out.extend_from_slice(digits.as_bytes());
    }
    out.push(b'\n');
}
