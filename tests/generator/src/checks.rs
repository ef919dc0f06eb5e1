//! The checks of single records, by the independent program's table of fields.
//! A form that is not known counts as the old one.

use independent::lines::{all_allowed, cases_of, s_line, CASE_FORM, HEADER, OLD_FORM};
use independent::records::{check_member_call, not_low_rise};
use independent::{Header, Member, Refusal, Storey};

fn refused_by(number: u8) -> Result<(), Refusal> {
    Err(Refusal::of_record(number))
}

/// 3, then 7.
pub fn check_header(h: &Header) -> Result<(), Refusal> {
    let known = h.form == OLD_FORM || h.form == CASE_FORM;
    if !known || !all_allowed(&HEADER, &h.values()) {
        return refused_by(3);
    }
    if not_low_rise(h) {
        return refused_by(7);
    }
    Ok(())
}

/// 3.
pub fn check_storey(form: u64, s: &Storey) -> Result<(), Refusal> {
    let zeros = s.shears[cases_of(form)..].iter().all(|&shear| shear == 0);
    if zeros && all_allowed(&s_line(form).fields, &s.values(form)) {
        return Ok(());
    }
    refused_by(3)
}

/// 3, then 4.
pub fn check_member(form: u64, m: &Member) -> Result<(), Refusal> {
    let form = if form == CASE_FORM {
        CASE_FORM
    } else {
        OLD_FORM
    };
    check_member_call(100, form, m)
}
