//! The records of a survey and the checks made on them.
//!
//! Values are checked as i128, so that whatever stands in a record can be
//! looked at without overflow.

use crate::lines::{
    all_allowed, cases_of, s_line, CASES, CASE_FORM, HEADER, LOAD_CASE, MEMBER, OLD_FORM,
};

/// A refusal by number, with the line when reading, else line 0.
#[derive(Clone, Copy, Debug, PartialEq, Eq, Hash)]
pub struct Refusal {
    pub number: u8,
    pub line: u64,
}

impl Refusal {
    pub fn at(number: u8, line: u64) -> Refusal {
        Refusal { number, line }
    }

    /// A refusal of a call on records.
    pub fn of_record(number: u8) -> Refusal {
        Refusal { number, line: 0 }
    }
}

/// The B line and the form of the survey.
#[derive(Clone, Copy, Debug, Default, PartialEq, Eq, Hash)]
pub struct Header {
    /// k, hundredths.
    pub knowledge: u64,
    /// H_T, mm.
    pub height: u64,
    /// n_s.
    pub storeys: u64,
    /// Microradians.
    pub tilt_1: u64,
    pub tilt_2: u64,
    /// Number of S lines.
    pub storey_count: u64,
    /// 1 the old form, 2 four load cases. Not written in the file.
    pub form: u64,
}

/// An S line.
#[derive(Clone, Copy, Debug, Default, PartialEq, Eq, Hash)]
pub struct Storey {
    pub number: u64,
    /// W of each case, 0.1 kN. In the old form all but the first are 0.
    pub shears: [u64; 4],
    /// Number of M lines.
    pub count: u64,
}

/// An M line, with its D lines where the survey has four cases.
#[derive(Clone, Copy, Debug, Default, PartialEq, Eq, Hash)]
pub struct Member {
    /// 1
    pub number: u64,
    /// 2, mm
    pub long_side: u64,
    /// 3, mm
    pub short_side: u64,
    /// 4 A_c, mm²
    pub a_c: u64,
    /// 5 f_cm, 0.1 MPa
    pub f_cm: u64,
    /// 6 f_ctm, 0.01 MPa
    pub f_ctm: u64,
    /// 7 f_yw, 0.1 MPa
    pub f_yw: u64,
    /// 8 depth d, mm
    pub d: u64,
    /// 9 wall height H_w, mm
    pub h_w: u64,
    /// 10 hoop spacing s, mm
    pub s: u64,
    /// 11 core width b_k, mm
    pub b_k: u64,
    /// 12 hoop area A_sh, mm²
    pub a_sh: u64,
    /// 13 hooks of 135° at both ends
    pub hooks: u64,
    /// 14 wall boundary zone
    pub boundary_zone: u64,
    /// 15
    pub strengthened: u64,
    /// 16 reduction factor of annex I, hundredths
    pub factor: u64,
    /// 17 worst damage kind
    pub damage_kind: u64,
    /// 18 N_D, 0.1 kN, compression positive
    pub n_d: i64,
    /// The last of the M line: detailed to annex E
    pub annex_e: u64,
    /// The cases in order. In the old form all but the first hold 0.
    pub cases: [LoadCase; 4],
}

/// A member in one load case: fields 19 to 26 of the old form's M line.
#[derive(Clone, Copy, Debug, Default, PartialEq, Eq, Hash)]
pub struct LoadCase {
    /// 19 N_K, 0.1 kN, compression positive
    pub n_k: i64,
    /// 20 M_e, 0.1 kNm
    pub m_e: u64,
    /// 21 M_p, 0.1 kNm
    pub m_p: u64,
    /// 22 V_e, 0.1 kN
    pub v_e: u64,
    /// 23 V_r, 0.1 kN
    pub v_r: u64,
    /// 24 V, 0.1 kN
    pub v: u64,
    /// 25, microradians
    pub rotation: u64,
    /// 26, millionths
    pub drift: u64,
}

// ---- records and the values of their lines, in the lines' order ----

impl Header {
    /// Without the form.
    pub fn values(&self) -> [i128; HEADER.len()] {
        [
            self.knowledge as i128,
            self.height as i128,
            self.storeys as i128,
            self.tilt_1 as i128,
            self.tilt_2 as i128,
            self.storey_count as i128,
        ]
    }

    pub fn from_values(values: &[i128], form: u64) -> Header {
        Header {
            knowledge: values[0] as u64,
            height: values[1] as u64,
            storeys: values[2] as u64,
            tilt_1: values[3] as u64,
            tilt_2: values[4] as u64,
            storey_count: values[5] as u64,
            form,
        }
    }
}

impl Storey {
    /// With the shears that the form has.
    pub fn values(&self, form: u64) -> Vec<i128> {
        let mut values = vec![self.number as i128];
        for &shear in &self.shears[..cases_of(form)] {
            values.push(shear as i128);
        }
        values.push(self.count as i128);
        values
    }

    pub fn from_values(values: &[i128], form: u64) -> Storey {
        let mut shears = [0; CASES];
        for (i, shear) in shears[..cases_of(form)].iter_mut().enumerate() {
            *shear = values[1 + i] as u64;
        }
        Storey {
            number: values[0] as u64,
            shears,
            count: values[values.len() - 1] as u64,
        }
    }
}

impl Member {
    /// What it has once.
    pub fn values(&self) -> [i128; MEMBER.len()] {
        [
            self.number as i128,
            self.long_side as i128,
            self.short_side as i128,
            self.a_c as i128,
            self.f_cm as i128,
            self.f_ctm as i128,
            self.f_yw as i128,
            self.d as i128,
            self.h_w as i128,
            self.s as i128,
            self.b_k as i128,
            self.a_sh as i128,
            self.hooks as i128,
            self.boundary_zone as i128,
            self.strengthened as i128,
            self.factor as i128,
            self.damage_kind as i128,
            self.n_d as i128,
            self.annex_e as i128,
        ]
    }

    pub fn from_values(values: &[i128], cases: [LoadCase; 4]) -> Member {
        Member {
            number: values[0] as u64,
            long_side: values[1] as u64,
            short_side: values[2] as u64,
            a_c: values[3] as u64,
            f_cm: values[4] as u64,
            f_ctm: values[5] as u64,
            f_yw: values[6] as u64,
            d: values[7] as u64,
            h_w: values[8] as u64,
            s: values[9] as u64,
            b_k: values[10] as u64,
            a_sh: values[11] as u64,
            hooks: values[12] as u64,
            boundary_zone: values[13] as u64,
            strengthened: values[14] as u64,
            factor: values[15] as u64,
            damage_kind: values[16] as u64,
            n_d: values[17] as i64,
            annex_e: values[18] as u64,
            cases,
        }
    }
}

impl LoadCase {
    pub fn values(&self) -> [i128; LOAD_CASE.len()] {
        [
            self.n_k as i128,
            self.m_e as i128,
            self.m_p as i128,
            self.v_e as i128,
            self.v_r as i128,
            self.v as i128,
            self.rotation as i128,
            self.drift as i128,
        ]
    }

    pub fn from_values(values: &[i128]) -> LoadCase {
        LoadCase {
            n_k: values[0] as i64,
            m_e: values[1] as u64,
            m_p: values[2] as u64,
            v_e: values[3] as u64,
            v_r: values[4] as u64,
            v: values[5] as u64,
            rotation: values[6] as u64,
            drift: values[7] as u64,
        }
    }
}

// ---- what 3, 4, 5 and 7 look at ----

fn header_in_range(h: &Header) -> bool {
    all_allowed(&HEADER, &h.values()) && form_in_range(h.form)
}

fn form_in_range(form: u64) -> bool {
    form == OLD_FORM || form == CASE_FORM
}

/// The shears of cases that the form lacks are 0.
fn storey_in_range(form: u64, s: &Storey) -> bool {
    let lacking = &s.shears[cases_of(form)..];
    all_allowed(&s_line(form).fields, &s.values(form)) && lacking.iter().all(|&shear| shear == 0)
}

/// The cases that the form lacks hold 0.
fn member_in_range(form: u64, m: &Member) -> bool {
    let (present, lacking) = m.cases.split_at(cases_of(form));
    all_allowed(&MEMBER, &m.values())
        && present.iter().all(|c| all_allowed(&LOAD_CASE, &c.values()))
        && lacking.iter().all(|c| *c == LoadCase::default())
}

pub fn short_above_long(m: &Member) -> bool {
    m.short_side > m.long_side
}

/// H_T > 30,000 or n_s > 10.
pub fn not_low_rise(h: &Header) -> bool {
    h.height > 30_000 || h.storeys > 10
}

pub fn storey_number_repeated(earlier: &[Storey], number: u64) -> bool {
    earlier.iter().any(|s| s.number == number)
}

pub fn member_number_repeated(earlier: &[Member], number: u64) -> bool {
    earlier.iter().any(|m| m.number == number)
}

// ---- checks of single records ----

fn refuse_if(bad: bool, number: u8) -> Result<(), Refusal> {
    if bad {
        Err(Refusal::of_record(number))
    } else {
        Ok(())
    }
}

/// k by 3, then the form by 3.
fn check_knowledge_and_form(k: u64, form: u64) -> Result<(), Refusal> {
    refuse_if(!all_allowed(&HEADER[..1], &[k as i128]), 3)?;
    refuse_if(!form_in_range(form), 3)
}

/// 3, then 7.
fn check_header(h: &Header) -> Result<(), Refusal> {
    refuse_if(!header_in_range(h), 3)?;
    refuse_if(not_low_rise(h), 7)
}

/// 3.
fn check_storey(form: u64, s: &Storey) -> Result<(), Refusal> {
    refuse_if(!storey_in_range(form, s), 3)
}

/// 3, then 4.
fn check_member(form: u64, m: &Member) -> Result<(), Refusal> {
    refuse_if(!member_in_range(form, m), 3)?;
    refuse_if(short_above_long(m), 4)
}

/// The members of one storey, in order: 3, 4, 5 of each.
fn check_members(form: u64, members: &[Member]) -> Result<(), Refusal> {
    for (i, m) in members.iter().enumerate() {
        check_member(form, m)?;
        refuse_if(member_number_repeated(&members[..i], m.number), 5)?;
    }
    Ok(())
}

// ---- checks of whole calls ----

/// A member judged singly: k and form by 3, then the record.
pub fn check_member_call(k: u64, form: u64, m: &Member) -> Result<(), Refusal> {
    check_knowledge_and_form(k, form)?;
    check_member(form, m)
}

/// A storey: 1, then k and form by 3, then its record and its members.
pub fn check_storey_call(k: u64, form: u64, s: &Storey, members: &[Member]) -> Result<(), Refusal> {
    refuse_if(s.count as u128 != members.len() as u128, 1)?;
    check_knowledge_and_form(k, form)?;
    check_storey(form, s)?;
    check_members(form, members)
}

/// A whole survey: 1 over all, then the records in survey order.
pub fn check_survey(h: &Header, storeys: &[Storey], members: &[Member]) -> Result<(), Refusal> {
    refuse_if(h.storey_count as u128 != storeys.len() as u128, 1)?;
    let total: u128 = storeys.iter().map(|s| s.count as u128).sum();
    refuse_if(total != members.len() as u128, 1)?;

    check_header(h)?;
    for (i, (s, its_members)) in by_storey(storeys, members).into_iter().enumerate() {
        check_storey(h.form, s)?;
        refuse_if(storey_number_repeated(&storeys[..i], s.number), 5)?;
        check_members(h.form, its_members)?;
    }
    Ok(())
}

/// Each storey with its members. The counts must total the rows given.
pub(crate) fn by_storey<'a>(
    storeys: &'a [Storey],
    members: &'a [Member],
) -> Vec<(&'a Storey, &'a [Member])> {
    let mut rest = members;
    let mut pairs = Vec::new();
    for s in storeys {
        let (its_members, later) = rest.split_at(s.count as usize);
        pairs.push((s, its_members));
        rest = later;
    }
    pairs
}
