//! Members at and one beside every row of the tables, whatever the seed.

use crate::cases::one_case;
use crate::edges::{is_wall, limits};
use crate::sizes::members_most;
use independent::lines::cases_of;
use independent::{Header, LoadCase, Member, Storey, Survey};
use std::array::from_fn;

const COLUMN_AXIAL: [u64; 4] = [10_000, 60_000, 70_000, 100_000];
const COLUMN_C_AXIAL: [u64; 2] = [70_000, 100_000];
const HOOPS: [u64; 2] = [500, 6_000];
const WALL_AXIAL: [u64; 2] = [10_000, 25_000];
const STRESS: [u64; 2] = [90_000, 130_000];

/// Strengthened, detailed to annex E, and the reduction factor: of a column,
/// which does not read the second, and of a wall.
const COLUMN_MARKS: [(u64, u64, u64); 4] = [(0, 1, 100), (1, 0, 100), (0, 0, 50), (1, 1, 33)];
const WALL_MARKS: [(u64, u64, u64); 8] = [
    (0, 0, 100),
    (0, 1, 100),
    (1, 0, 100),
    (1, 1, 100),
    (0, 0, 33),
    (0, 1, 33),
    (1, 0, 33),
    (1, 1, 33),
];

/// How far m and rotation stand from their limits.
const STEPS: [(i64, i64); 4] = [(0, 0), (1, 0), (0, 1), (-1, -1)];

const K: u64 = 100;

/// Surveys of one storey each, in which every class stands at and one beside
/// each row of its tables, with m and rotation at and one beside their limits,
/// in each case. Each storey comes twice: its walls below 0.40 of the storey
/// shear, and above; in four cases by turns.
pub fn surveys_at_rows(form: u64) -> Vec<Survey> {
    let members = members_at_rows(form);
    let storeys = members.chunks(members_most(form, 1));
    let shears = [[1_000, 1, 1_000, 1], [1, 1_000, 1, 1_000]];
    let twice = |own| shears.map(|shears| survey(form, shears, own));
    storeys.flat_map(twice).collect()
}

fn survey(form: u64, shears: [u64; 4], members: &[Member]) -> Survey {
    let numbered = (1..).zip(members);
    Survey {
        header: Header {
            knowledge: K,
            height: 3_000,
            storeys: 1,
            tilt_1: 0,
            tilt_2: 0,
            storey_count: 1,
            form,
        },
        storeys: vec![Storey {
            number: 1,
            shears: from_fn(|i| if i < cases_of(form) { shears[i] } else { 0 }),
            count: members.len() as u64,
        }],
        members: numbered
            .map(|(number, m)| Member { number, ..*m })
            .collect(),
    }
}

fn members_at_rows(form: u64) -> Vec<Member> {
    let places = [columns_a(), columns_b(), columns_c(), walls_a(), walls_b()].concat();
    let marked = places.iter().flat_map(with_marks);
    marked.flat_map(|m| at_limits(form, &m)).collect()
}

/// Each row and the value on either side.
fn beside(rows: &[u64]) -> Vec<u64> {
    rows.iter()
        .flat_map(|&row| [row - 1, row, row + 1])
        .collect()
}

/// Every pair of a value beside the one rows and a value beside the others.
fn pairs(rows: &[u64], others: &[u64]) -> Vec<(u64, u64)> {
    let others = beside(others);
    let with_others = |x| others.iter().map(move |&y| (x, y));
    beside(rows).into_iter().flat_map(with_others).collect()
}

/// A column of class B: n is N_K, n_D is N_D, ρ is A_sh and m is M_e.
fn column(n: u64, hoops: u64) -> Member {
    Member {
        number: 1,
        long_side: 1_250,
        short_side: 800,
        a_c: 1_000_000,
        f_cm: 100,
        f_ctm: 100,
        f_yw: 2_200,
        d: 1_200,
        h_w: 3_000,
        s: 1_000,
        b_k: 1_000,
        a_sh: hoops,
        n_d: n as i64,
        cases: one_case(LoadCase {
            n_k: n as i64,
            m_p: 100_000,
            v_r: 10,
            v: 1,
            ..LoadCase::default()
        }),
        ..Member::default()
    }
}

fn columns_a() -> Vec<Member> {
    let detailed = |n| Member {
        s: 100,
        b_k: 200,
        hooks: 1,
        ..column(n, 500)
    };
    beside(&COLUMN_AXIAL).into_iter().map(detailed).collect()
}

fn columns_b() -> Vec<Member> {
    let places = pairs(&COLUMN_AXIAL, &HOOPS).into_iter();
    places.map(|(n, hoops)| column(n, hoops)).collect()
}

fn columns_c() -> Vec<Member> {
    let sheared = |n| {
        let mut m = column(n, 500);
        m.cases[0].v_e = 12;
        m
    };
    beside(&COLUMN_C_AXIAL).into_iter().map(sheared).collect()
}

/// A wall of class A without boundary zone: v is V_e.
fn wall(n: u64, stress: u64) -> Member {
    let plain = column(n, 0);
    Member {
        long_side: 500,
        short_side: 100,
        f_ctm: 1_000,
        d: 10_000,
        cases: one_case(LoadCase {
            v_e: stress,
            v_r: 200_000,
            ..plain.cases[0]
        }),
        ..plain
    }
}

fn walls_a() -> Vec<Member> {
    let both = |(n, stress)| {
        [0, 1].map(|boundary_zone| Member {
            boundary_zone,
            ..wall(n, stress)
        })
    };
    pairs(&WALL_AXIAL, &STRESS)
        .into_iter()
        .flat_map(both)
        .collect()
}

fn walls_b() -> Vec<Member> {
    let low = |stress| Member {
        h_w: 999,
        ..wall(10_000, stress)
    };
    beside(&STRESS).into_iter().map(low).collect()
}

fn with_marks(m: &Member) -> Vec<Member> {
    let marked = |&(strengthened, annex_e, factor): &(u64, u64, u64)| Member {
        strengthened,
        annex_e,
        factor,
        ..*m
    };
    let marks: &[(u64, u64, u64)] = if is_wall(m) {
        &WALL_MARKS
    } else {
        &COLUMN_MARKS
    };
    marks.iter().map(marked).collect()
}

/// The member with its demands at its limits and beside them, in each case
/// those of the next step.
fn at_limits(form: u64, m: &Member) -> Vec<Member> {
    let (m_limit, rotation_limit) = limits(K, m, &m.cases[0]);
    let steps = STEPS.map(|(m_step, rotation_step)| LoadCase {
        m_e: m_limit.saturating_add_signed(m_step),
        rotation: rotation_limit.saturating_add_signed(rotation_step),
        ..m.cases[0]
    });
    let from_step = |first: usize| {
        let mut cases = one_case(steps[first]);
        for i in 1..cases_of(form) {
            cases[i] = steps[(first + i) % STEPS.len()];
        }
        Member { cases, ..*m }
    };
    (0..STEPS.len()).map(from_step).collect()
}
