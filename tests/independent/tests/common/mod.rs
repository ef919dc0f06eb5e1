//! The worked example's records and a writer of lines.
#![allow(dead_code)]

pub mod cases;
pub mod draw;
pub mod old;
pub mod pairs;

use independent::Refusal;
use old::{Header, Member, Storey};

/// The number and line of a refusal.
pub fn refused<T: std::fmt::Debug>(result: Result<T, Refusal>) -> (u8, u64) {
    let refusal = result.unwrap_err();
    (refusal.number, refusal.line)
}

/// A line in the house columns from its fields parted by blanks.
pub fn line(tag: char, fields: &str) -> String {
    let mut text = tag.to_string();
    for field in fields.split_whitespace() {
        text.push_str(&format!("{:>8}", field));
    }
    text.push('\n');
    text
}

/// The same line with one field (from 1) put in as it stands.
pub fn with_field(text: &str, field: usize, raw: &str) -> String {
    let mut text = text.to_string();
    text.replace_range(1 + (field - 1) * 8..1 + field * 8, raw);
    text
}

/// The same line with one field's number changed.
pub fn with_number(text: &str, field: usize, value: i64) -> String {
    with_field(text, field, &format!("{:>8}", value))
}

pub const B: &str = "100 9000 3 0 0 1";
pub const S: &str = "1 1000 2";
pub const M1: &str = "1 300 300 90000 100 110 2200 270 3000 200 250 100 0 0 0 100 0 \
                      3150 3150 600 200 60 100 200 9000 0 0";
pub const M2: &str = "2 300 300 90000 100 110 2200 270 3000 200 250 100 0 0 0 100 0 \
                      3600 3150 400 200 60 100 700 9000 0 0";

pub fn example_lines() -> Vec<String> {
    vec![line('B', B), line('S', S), line('M', M1), line('M', M2)]
}

pub fn example_file() -> Vec<u8> {
    example_lines().concat().into_bytes()
}

pub const EXAMPLE_SHEET: &str = "\
M           1           2      300000      259090        9000       12500           1
M           2           2      200000      259090        9000       12500           0
S           1       75000           2         200        1000           1
B           0           1
";

pub fn header() -> Header {
    Header {
        knowledge: 100,
        height: 9000,
        storeys: 3,
        tilt_1: 0,
        tilt_2: 0,
        storey_count: 1,
    }
}

pub fn storey() -> Storey {
    Storey {
        number: 1,
        shear: 1000,
        member_count: 2,
    }
}

/// The example's first member: a column of class B.
pub fn member() -> Member {
    Member {
        number: 1,
        long_side: 300,
        short_side: 300,
        a_c: 90_000,
        f_cm: 100,
        f_ctm: 110,
        f_yw: 2_200,
        d: 270,
        h_w: 3_000,
        s: 200,
        b_k: 250,
        a_sh: 100,
        hooks: 0,
        boundary_zone: 0,
        strengthened: 0,
        factor: 100,
        damage_kind: 0,
        n_d: 3_150,
        n_k: 3_150,
        m_e: 600,
        m_p: 200,
        v_e: 60,
        v_r: 100,
        v: 200,
        rotation: 9_000,
        drift: 0,
        annex_e: 0,
    }
}

pub fn second_member() -> Member {
    Member {
        number: 2,
        n_d: 3_600,
        m_e: 400,
        v: 700,
        ..member()
    }
}

/// A column that is detailed.
pub fn detailed() -> Member {
    Member {
        s: 100,
        hooks: 1,
        a_sh: 1_000,
        ..member()
    }
}

/// A wall of class A with boundary zone: v = V_e, n = N_K.
pub fn wall() -> Member {
    Member {
        long_side: 1_000,
        short_side: 200,
        a_c: 2_000_000,
        f_cm: 50,
        f_ctm: 1_000,
        d: 5_000,
        h_w: 2_000,
        boundary_zone: 1,
        n_d: 0,
        n_k: 10_000,
        m_e: 0,
        v_e: 90_000,
        v_r: 90_001,
        rotation: 0,
        ..member()
    }
}
