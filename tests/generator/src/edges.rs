//! Members whose values lie at, or one beside, the edges of the rules.

use crate::cases::one_case;
use crate::rng::Rng;
use independent::judge_member;
use independent::lines::{cases_of, Field, HEADER, LOAD_CASE, MEMBER, OLD_FORM};
use independent::{LoadCase, Member};

/// A valid record of a form at the edges of the rules, for either k.
pub fn edge_member(rng: &mut Rng, form: u64) -> Member {
    let k = rng.pick(&[90, 100]);
    edge_member_for(rng, k, form)
}

/// A valid record of a form at the edges of the rules for this k: each case
/// made for the same section, or the one before again.
pub fn edge_member_for(rng: &mut Rng, k: u64, form: u64) -> Member {
    let mut m = match rng.below(20) {
        0 => extreme(rng),
        1..=11 => column(rng),
        _ => wall(rng),
    };
    for i in 0..cases_of(form) {
        m.cases[i] = match i {
            1.. if rng.chance(15) => m.cases[i - 1],
            _ => load_case(rng, k, &m),
        };
    }
    m
}

/// A load case of a member at the edges of the rules for this k.
pub fn load_case(rng: &mut Rng, k: u64, m: &Member) -> LoadCase {
    let mut load = match rng.below(20) {
        0 => LoadCase::from_values(&anywhere(rng, &LOAD_CASE)),
        _ if is_wall(m) => wall_load(rng, k, m),
        _ => column_load(rng, k, m),
    };
    demands(rng, k, m, &mut load);
    load
}

/// Long side at least five times the short side.
pub fn is_wall(m: &Member) -> bool {
    m.long_side >= 5 * m.short_side
}

/// Least and most of a field that has them in itself.
pub fn range(field: Field) -> (i128, i128) {
    match field {
        Field::Within(least, most) => (least, most),
        Field::Knowledge => (90, 100),
        Field::StoreyCount => (1, range(HEADER[2]).1),
    }
}

/// Every field anywhere in its range, mostly at the ends.
fn anywhere(rng: &mut Rng, fields: &[Field]) -> Vec<i128> {
    let spread = |&field| {
        let (least, most) = range(field);
        rng.spread(least, most)
    };
    fields.iter().map(spread).collect()
}

fn extreme(rng: &mut Rng) -> Member {
    let mut values = anywhere(rng, &MEMBER);
    if values[2] > values[1] {
        values.swap(1, 2);
    }
    Member::from_values(&values, Default::default())
}

/// An ordinary record to start from, without a case.
fn ordinary(rng: &mut Rng) -> Member {
    let n = |rng: &mut Rng, least, most| rng.between(least, most) as u64;
    Member {
        number: n(rng, 1, 9_999_999),
        long_side: 500,
        short_side: 300,
        a_c: 150_000,
        f_cm: 100,
        f_ctm: n(rng, 50, 300),
        f_yw: n(rng, 1_500, 6_000),
        d: n(rng, 100, 1_000),
        h_w: n(rng, 2_500, 15_000),
        s: n(rng, 50, 400),
        b_k: n(rng, 150, 600),
        a_sh: n(rng, 0, 1_500),
        hooks: rng.chance(70) as u64,
        boundary_zone: rng.chance(50) as u64,
        strengthened: rng.chance(30) as u64,
        factor: factor(rng),
        damage_kind: if rng.chance(10) { n(rng, 1, 4) } else { 0 },
        annex_e: rng.chance(50) as u64,
        ..Member::default()
    }
}

/// A case without moment, rotation and shear demand.
fn ordinary_load(rng: &mut Rng) -> LoadCase {
    LoadCase {
        m_p: 1,
        v_r: 1,
        v: rng.between(0, 500) as u64,
        drift: drift(rng),
        ..LoadCase::default()
    }
}

fn factor(rng: &mut Rng) -> u64 {
    match rng.below(8) {
        0..=3 => 100,
        4 => 0,
        5 => rng.pick(&[1, 50, 75, 99]),
        _ => rng.below(101),
    }
}

fn drift(rng: &mut Rng) -> u64 {
    rng.pick(&[7_499, 7_499, 7_499, 7_500, 7_501, 0, 5_000, 9_999_999])
}

// ---- columns ----

/// n at the rows of columns, and half way.
const COLUMN_ROWS: [i128; 6] = [10_000, 60_000, 70_000, 100_000, 35_000, 85_000];

fn column(rng: &mut Rng) -> Member {
    let mut m = ordinary(rng);
    column_sides(rng, &mut m);
    concrete(rng, &mut m);
    hoops(rng, &mut m);
    m.n_d = axial_force(rng, &m, &COLUMN_ROWS);
    m
}

fn column_load(rng: &mut Rng, k: u64, m: &Member) -> LoadCase {
    let mut load = ordinary_load(rng);
    column_shear(rng, k, &mut load);
    load.n_k = axial_force(rng, m, &COLUMN_ROWS);
    load
}

fn column_sides(rng: &mut Rng, m: &mut Member) {
    let short = match rng.below(10) {
        0 => rng.pick(&[1, 2, 19_999, 20_000]),
        _ => rng.between(100, 1_200),
    };
    let most = 5 * short - 1;
    let long = match rng.below(4) {
        0 => short,
        1 => most,
        2 => (most - 1).max(short),
        _ => rng.between(short, most),
    };
    m.short_side = short as u64;
    m.long_side = long as u64;
}

/// A_c and f_cm: n in whole steps of N_K, or any that let n take every value.
fn concrete(rng: &mut Rng, m: &mut Member) {
    let (f_cm, a_c) = match rng.below(20) {
        0 => (rng.between(1, 10), rng.between(1, 100)),
        1..=8 => rng.pick(&[
            (100, 1_000_000),
            (200, 500_000),
            (250, 400_000),
            (125, 800_000),
            (50, 2_000_000),
            (100, 900_000),
            (160, 1_250_000),
            (300, 1_200_000),
            (250, 160_000),
            (100, 90_000),
        ]),
        _ => {
            let f_cm = rng.between(40, 600);
            (f_cm, rng.between(100_000_000 / f_cm + 1, 9_999_999))
        }
    };
    m.f_cm = f_cm as u64;
    m.a_c = a_c as u64;
}

fn hoops(rng: &mut Rng, m: &mut Member) {
    match rng.below(20) {
        0..=7 => hoop_ratio(rng, m),
        8..=15 => hoop_condition(rng, m),
        16 => {
            // ρ at its cap.
            m.s = 1;
            m.b_k = rng.pick(&[1, 2]);
            m.a_sh = rng.pick(&[1, 2, 99_999]);
        }
        _ => m.s = rng.pick(&[99, 100, 101, 150, 9_999]),
    }
}

/// ρ at or beside a row, or anywhere between.
fn hoop_ratio(rng: &mut Rng, m: &mut Member) {
    let target = match rng.below(6) {
        0 | 1 => rng.beside(500),
        2 | 3 => rng.beside(6_000),
        4 => rng.beside(3_250),
        _ => rng.between(0, 7_000),
    };
    let (s, b_k) = match rng.below(4) {
        0 => (100, 10_000),
        1 => (1_000, 1_000),
        2 => (rng.pick(&[99, 100, 101]), rng.between(10_200, 90_000)),
        _ => (rng.between(50, 400), rng.between(150, 600)),
    };
    // The least A_sh whose ρ reaches the target.
    let a_sh = (target * s * b_k + 999_999) / 1_000_000;
    m.s = s as u64;
    m.b_k = b_k as u64;
    m.a_sh = a_sh.clamp(0, 99_999) as u64;
}

/// 100 x A_sh x f_yw equal to 6 x f_cm x s x b_k, or one value beside.
fn hoop_condition(rng: &mut Rng, m: &mut Member) {
    let p = rng.between(1, 16);
    let s = rng.pick(&[1, 2, 50, 75, 99, 100, 100, 100, 101]);
    let b_k = rng.between(20, 900);
    m.f_cm = (50 * p) as u64;
    m.s = s as u64;
    m.b_k = b_k as u64;
    m.a_sh = (p * s) as u64;
    m.f_yw = (3 * b_k) as u64;
    m.a_c = m.a_c.max(100_000_000 / m.f_cm + 1);
    match rng.below(12) {
        0 => m.f_yw += 1,
        1 => m.f_yw -= 1,
        2 => m.a_sh += 1,
        3 => m.a_sh -= 1,
        4 => m.b_k += 1,
        5 => m.b_k -= 1,
        6 => m.f_cm += 1,
        7 => m.f_cm -= 1,
        _ => {}
    }
}

/// 1000 x V_e at 7 x k x V_r or 11 x k x V_r, or one beside.
fn column_shear(rng: &mut Rng, k: u64, load: &mut LoadCase) {
    let v_r = match rng.below(4) {
        0 => 100 * rng.between(1, 30),
        1 => 1_000 * rng.between(1, 100),
        2 => rng.spread(1, 9_999_999),
        _ => rng.between(1, 5_000),
    };
    let times = rng.pick(&[7, 7, 7, 11, 11]);
    let at = times * k as i128 * v_r / 1_000;
    let v_e = match rng.below(10) {
        0..=6 => rng.beside(at),
        7 => at / 2,
        8 => rng.beside(k as i128 * v_r / 100),
        _ => rng.spread(0, 9_999_999),
    };
    load.v_r = v_r as u64;
    load.v_e = v_e.clamp(0, 9_999_999) as u64;
}

// ---- walls ----

/// n at the rows of walls, and half way.
const WALL_ROWS: [i128; 3] = [10_000, 25_000, 17_500];

fn wall(rng: &mut Rng) -> Member {
    let mut m = ordinary(rng);
    wall_sides(rng, &mut m);
    concrete(rng, &mut m);
    web(rng, &mut m);
    m.n_d = axial_force(rng, &m, &WALL_ROWS);
    m
}

fn wall_load(rng: &mut Rng, k: u64, m: &Member) -> LoadCase {
    let mut load = ordinary_load(rng);
    wall_shear(rng, k, m, &mut load);
    load.n_k = axial_force(rng, m, &WALL_ROWS);
    load
}

fn wall_sides(rng: &mut Rng, m: &mut Member) {
    let short = match rng.below(10) {
        0 => rng.pick(&[1, 2, 9_999, 19_999]),
        1..=5 => rng.pick(&[100, 125, 160, 200, 250, 400, 500]),
        _ => rng.between(100, 500),
    };
    let long = match rng.below(5) {
        0 | 1 => 5 * short,
        2 => 5 * short + 1,
        _ => rng.between(5 * short, (40 * short).clamp(5 * short, 99_999)),
    };
    let height = match rng.below(8) {
        0 | 1 | 2 => 2 * long,
        3 => 2 * long - 1,
        4 => 2 * long + 1,
        5 => rng.between(1, 99_999),
        _ => 99_999,
    };
    m.short_side = short as u64;
    m.long_side = long as u64;
    m.h_w = height.clamp(1, 99_999) as u64;
}

/// d and f_ctm: v in whole steps of V_e, or any.
fn web(rng: &mut Rng, m: &mut Member) {
    let short = m.short_side as i128;
    let (d, f_ctm) = match rng.below(10) {
        0..=3 if 1_000_000 % short == 0 => (1_000_000 / short * rng.between(1, 3), 1_000),
        9 => (rng.spread(1, 99_999), rng.spread(1, 9_999)),
        _ => (rng.between(1_000, 10_000), rng.between(80, 4_000)),
    };
    m.d = d.clamp(1, 99_999) as u64;
    m.f_ctm = f_ctm as u64;
}

/// v at or beside a row, and 100 x V_e at or beside k x V_r.
fn wall_shear(rng: &mut Rng, k: u64, m: &Member, load: &mut LoadCase) {
    let area = m.short_side as i128 * m.d as i128 * m.f_ctm as i128;
    let target = match rng.below(12) {
        0..=3 => rng.beside(90_000),
        4..=6 => rng.beside(130_000),
        7 => rng.beside(110_000),
        8 => rng.pick(&[9_999_998, 9_999_999, 10_000_000, 10_000_001]),
        9 => 0,
        _ => rng.between(0, 160_000),
    };
    let v_e = (target * area / 1_000_000_000).clamp(0, 9_999_999);
    let even = 100 * v_e / k as i128;
    let v_r = match rng.below(12) {
        0 => even,
        1 => even - 1,
        2..=4 => even + 1,
        5 => even + 2,
        6 => even / 2,
        7 => rng.spread(1, 9_999_999),
        _ => 2 * even + 10,
    };
    load.v_e = v_e as u64;
    load.v_r = v_r.clamp(1, 9_999_999) as u64;
}

// ---- both ----

/// A force with its axial ratio at or beside a row.
fn axial_force(rng: &mut Rng, m: &Member, rows: &[i128]) -> i64 {
    match rng.below(20) {
        0 => rng.pick(&[0, -1, -999_999]),
        1 => -(rng.below(999_999) as i64),
        2 => rng.pick(&[1, 9_999_999]),
        3 => {
            let target = rng.pick(&[9_999_998, 9_999_999, 10_000_000]);
            force_for(m, target)
        }
        4..=7 => {
            let target = rng.between(0, 110_000);
            force_for(m, target)
        }
        _ => {
            let row = rng.pick(rows);
            let target = rng.beside(row);
            force_for(m, target)
        }
    }
}

/// The largest force whose axial ratio does not pass the target.
pub(crate) fn force_for(m: &Member, target: i128) -> i64 {
    let force = target * m.f_cm as i128 * m.a_c as i128 / 100_000_000;
    force.clamp(-999_999, 9_999_999) as i64
}

/// Moment and rotation at or beside their limits.
fn demands(rng: &mut Rng, k: u64, m: &Member, load: &mut LoadCase) {
    let (m_limit, rotation_limit) = limits(k, m, load);
    if rng.chance(25) {
        // Well within the limits.
        load.m_p = rng.between(100, 5_000) as u64;
        load.m_e = load.m_p / 4;
        load.rotation = rotation_limit / 2;
        return;
    }
    moment(rng, k, load, m_limit as i128);
    load.rotation = match rng.below(10) {
        0..=5 => rng.beside(rotation_limit as i128).max(0) as u64,
        6 => 0,
        7 => rng.spread(0, 9_999_999) as u64,
        _ => rng.below(40_000),
    };
}

/// The limits of m and rotation in a case.
pub(crate) fn limits(k: u64, m: &Member, load: &LoadCase) -> (u64, u64) {
    let alone = Member {
        cases: one_case(*load),
        ..*m
    };
    let found = judge_member(k, OLD_FORM, [false; 4], &alone).expect("a good member");
    (found[0].m_limit, found[0].rotation_limit)
}

fn moment(rng: &mut Rng, k: u64, load: &mut LoadCase, limit: i128) {
    let m_p = match rng.below(4) {
        0 => 100_000,
        1 => 1_000_000,
        _ => rng.between(111_112, 1_200_000),
    };
    let target = match rng.below(10) {
        0..=6 => rng.beside(limit),
        7 => rng.pick(&[9_999_998, 9_999_999, 10_000_000]),
        8 => rng.between(0, 800_000),
        _ => {
            load.m_p = rng.spread(1, 9_999_999) as u64;
            load.m_e = rng.spread(0, 9_999_999) as u64;
            return;
        }
    };
    // The largest moment whose ratio does not pass the target.
    let m_e = target * k as i128 * m_p / 10_000_000;
    load.m_p = m_p as u64;
    load.m_e = m_e.clamp(0, 9_999_999) as u64;
}
