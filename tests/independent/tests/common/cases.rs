//! An example with four load cases: lines, records and sheet. The first case is
//! the worked example.

use super::{line, member, second_member};
use independent::lines::CASE_FORM;
use independent::{Header, LoadCase, Member, Storey, Survey};

pub const S: &str = "1 1000 500 2000 400 2";
pub const M1: &str = "1 300 300 90000 100 110 2200 270 3000 200 250 100 0 0 0 100 0 3150 0";
pub const M2: &str = "2 300 300 90000 100 110 2200 270 3000 200 250 100 0 0 0 100 0 3600 0";
pub const D1: [&str; 4] = [
    "1 3150 600 200 60 100 200 9000 0",
    "2 0 600 200 60 100 200 18636 7",
    "3 7650 200 200 111 100 350 2501 0",
    "4 -10 0 200 60 100 71 18637 0",
];
pub const D2: [&str; 4] = [
    "1 3150 400 200 60 100 700 9000 0",
    "2 5400 345 200 60 100 300 6363 0",
    "3 3150 0 1 0 1 50 0 9999999",
    "4 3150 100 300 0 100 0 0 0",
];

/// B, S, then twice M with four D lines: 12 lines.
pub fn example_lines() -> Vec<String> {
    let mut lines = vec![line('B', super::B), line('S', S)];
    for (m, cases) in [(M1, D1), (M2, D2)] {
        lines.push(line('M', m));
        lines.extend(cases.map(|d| line('D', d)));
    }
    lines
}

pub fn example_file() -> Vec<u8> {
    example_lines().concat().into_bytes()
}

pub const EXAMPLE_SHEET: &str = "\
M           1           1           2      300000      259090        9000       12500           1
M           1           2           2      200000      259090        9000       12500           0
S           1           1       75000           2         200        1000           1
M           2           1           2      300000      345454       18636       18636           0
M           2           2           2      172500      172727        6363        6363           0
S           2           1       75000           2           0         500           0
M           3           1           3      100000      100000        2501        2500           1
M           3           2           2           0      259090           0       12500           0
S           3           1       75000           2         350        2000           0
M           4           1           2           0      345454       18637       18636           1
M           4           2           2       33334      259090           0       12500           0
S           4           1       75000           2          71         400           1
B           0           1
";

pub fn header() -> Header {
    Header {
        form: CASE_FORM,
        ..super::header().record()
    }
}

pub fn storey() -> Storey {
    Storey {
        number: 1,
        shears: [1_000, 500, 2_000, 400],
        count: 2,
    }
}

fn load(
    n_k: i64,
    [m_e, m_p]: [u64; 2],
    [v_e, v_r, v]: [u64; 3],
    [rotation, drift]: [u64; 2],
) -> LoadCase {
    LoadCase {
        n_k,
        m_e,
        m_p,
        v_e,
        v_r,
        v,
        rotation,
        drift,
    }
}

pub fn members() -> [Member; 2] {
    [
        member().record_with([
            load(3_150, [600, 200], [60, 100, 200], [9_000, 0]),
            load(0, [600, 200], [60, 100, 200], [18_636, 7]),
            load(7_650, [200, 200], [111, 100, 350], [2_501, 0]),
            load(-10, [0, 200], [60, 100, 71], [18_637, 0]),
        ]),
        second_member().record_with([
            load(3_150, [400, 200], [60, 100, 700], [9_000, 0]),
            load(5_400, [345, 200], [60, 100, 300], [6_363, 0]),
            load(3_150, [0, 1], [0, 1, 50], [0, 9_999_999]),
            load(3_150, [100, 300], [0, 100, 0], [0, 0]),
        ]),
    ]
}

pub fn survey() -> Survey {
    Survey {
        header: header(),
        storeys: vec![storey()],
        members: members().to_vec(),
    }
}

/// So many storeys of so many members each, numbered downwards.
pub fn block(storey_count: u64, count: u64) -> Survey {
    let [m, _] = members();
    let mut survey = Survey {
        header: Header {
            storeys: 10,
            storey_count,
            ..header()
        },
        storeys: Vec::new(),
        members: Vec::new(),
    };
    for number in (1..=storey_count).rev() {
        survey.storeys.push(Storey {
            number,
            count,
            ..storey()
        });
        for number in (1..=count).rev() {
            survey.members.push(Member { number, ..m });
        }
    }
    survey
}
