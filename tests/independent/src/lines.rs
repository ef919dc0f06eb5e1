//! The lines of a survey file in both forms. One table says what each field may
//! hold; the sizes of lines and the checks of records follow from it.

use Field::{Knowledge, StoreyCount, Within};

/// The form of document 01: one load case, within the M line.
pub const OLD_FORM: u64 = 1;

/// The form with four load cases, each in a D line.
pub const CASE_FORM: u64 = 2;

/// The load cases that a record has room for.
pub const CASES: usize = 4;

/// The columns of a field.
pub const COLUMNS: usize = 8;

/// What a field may hold.
#[derive(Clone, Copy, Debug, PartialEq, Eq)]
pub enum Field {
    /// k: 90 for minimum or 100 for full, no other.
    Knowledge,
    /// From 1 to n_s, the third field of its line.
    StoreyCount,
    /// From the least to the most.
    Within(i128, i128),
}

impl Field {
    /// Whether the field may hold this, after these fields of its line.
    pub fn allows(self, value: i128, before: &[i128]) -> bool {
        match self {
            Knowledge => value == 90 || value == 100,
            StoreyCount => 1 <= value && value <= before[2],
            Within(least, most) => least <= value && value <= most,
        }
    }

    /// Only N_D and N_K go below zero.
    pub fn minus_may_stand(self) -> bool {
        matches!(self, Within(least, _) if least < 0)
    }
}

/// Whether every field may hold its value.
pub fn all_allowed(fields: &[Field], values: &[i128]) -> bool {
    let mut pairs = fields.iter().zip(values).enumerate();
    pairs.all(|(i, (field, &value))| field.allows(value, &values[..i]))
}

// ---- the table ----

const NUMBER: Field = Within(1, 9_999_999);
const LENGTH: Field = Within(1, 99_999);
const MARK: Field = Within(0, 1);
const AXIAL: Field = Within(-999_999, 9_999_999);
const DEMAND: Field = Within(0, 9_999_999);
const CAPACITY: Field = Within(1, 9_999_999);
const TILT: Field = Within(0, 9_999_999);
const SHEAR: Field = Within(1, 9_999_999);
const MEMBER_COUNT: Field = Within(1, 200);
const CASE_NUMBER: Field = Within(1, CASES as i128);

/// The B line.
pub const HEADER: [Field; 6] = [Knowledge, LENGTH, Within(1, 99), TILT, TILT, StoreyCount];

/// What a member has once: fields 1 to 18 and the last of the M line.
pub const MEMBER: [Field; 19] = [
    NUMBER,
    LENGTH,
    LENGTH,
    Within(1, 9_999_999),
    Within(1, 9_999),
    Within(1, 9_999),
    Within(1, 99_999),
    LENGTH,
    LENGTH,
    Within(1, 9_999),
    LENGTH,
    Within(0, 99_999),
    MARK,
    MARK,
    MARK,
    Within(0, 100),
    Within(0, 4),
    AXIAL,
    MARK,
];

/// So many of them stand before the case in the old form's M line.
pub const BEFORE_CASE: usize = 18;

/// What a member has in a load case, former fields 19 to 26.
pub const LOAD_CASE: [Field; 8] = [
    AXIAL, DEMAND, CAPACITY, DEMAND, CAPACITY, DEMAND, DEMAND, DEMAND,
];

// ---- the lines ----

/// A line's tag and fields.
pub struct Line {
    pub tag: u8,
    pub fields: Vec<Field>,
}

impl Line {
    /// Tag, fields, LF.
    pub fn length(&self) -> usize {
        1 + self.fields.len() * COLUMNS + 1
    }
}

/// How many cases a survey of this form has.
pub fn cases_of(form: u64) -> usize {
    if form == CASE_FORM {
        CASES
    } else {
        1
    }
}

pub fn b_line() -> Line {
    Line {
        tag: b'B',
        fields: HEADER.to_vec(),
    }
}

/// Number, a storey shear for each case, count.
pub fn s_line(form: u64) -> Line {
    let mut fields = vec![NUMBER];
    fields.resize(1 + cases_of(form), SHEAR);
    fields.push(MEMBER_COUNT);
    Line { tag: b'S', fields }
}

/// In the old form the one case stands within what the member has once.
pub fn m_line(form: u64) -> Line {
    let (before, after) = MEMBER.split_at(BEFORE_CASE);
    let fields = if form == CASE_FORM {
        MEMBER.to_vec()
    } else {
        [before, &LOAD_CASE, after].concat()
    };
    Line { tag: b'M', fields }
}

/// Case number, then the case.
pub fn d_line() -> Line {
    let mut fields = vec![CASE_NUMBER];
    fields.extend(LOAD_CASE);
    Line { tag: b'D', fields }
}

#[cfg(test)]
mod tests {
    use super::*;

    #[test]
    fn sizes_of_lines() {
        assert_eq!(b_line().length(), 1 + 6 * 8 + 1);
        assert_eq!(s_line(OLD_FORM).length(), 1 + 3 * 8 + 1);
        assert_eq!(s_line(CASE_FORM).length(), 1 + 6 * 8 + 1);
        assert_eq!(m_line(OLD_FORM).length(), 1 + 27 * 8 + 1);
        assert_eq!(m_line(CASE_FORM).length(), 1 + 19 * 8 + 1);
        assert_eq!(d_line().length(), 1 + 9 * 8 + 1);
    }

    /// N_D is field 18 of an M line; N_K is field 19, or field 2 of a D line.
    #[test]
    fn where_a_minus_may_stand() {
        let of = |line: Line| -> Vec<usize> {
            let fields = line.fields.iter().enumerate();
            fields
                .filter(|(_, field)| field.minus_may_stand())
                .map(|(i, _)| i + 1)
                .collect()
        };
        assert!(of(b_line()).is_empty());
        assert!(of(s_line(OLD_FORM)).is_empty());
        assert!(of(s_line(CASE_FORM)).is_empty());
        assert_eq!(of(m_line(OLD_FORM)), [18, 19]);
        assert_eq!(of(m_line(CASE_FORM)), [18]);
        assert_eq!(of(d_line()), [2]);
    }
}
