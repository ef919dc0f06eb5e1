//! One member: class, ratios, limits, over or not.

use crate::fraction::Fraction;
use crate::lines::cases_of;
use crate::records::{check_member_call, LoadCase, Member, Refusal};

/// A grid that ratios are counted on.
struct Grid {
    /// So many steps are one.
    steps: i128,
    /// The largest number on it.
    cap: i128,
}

/// For n, n_D, m and v, and so for the limits of m: hundred-thousandths.
const RATIO_GRID: Grid = Grid {
    steps: 100_000,
    cap: 9_999_999,
};

/// For ρ: millionths.
const HOOP_GRID: Grid = Grid {
    steps: 1_000_000,
    cap: 999_999,
};

/// A member in one load case.
#[derive(Clone, Copy, Debug, PartialEq, Eq)]
pub struct MemberFinding {
    /// 1 to 3 columns A to C, 4 and 5 walls A and B.
    pub class: u8,
    /// From N_D, hundred-thousandths.
    pub n_d: u64,
    /// From N_K, hundred-thousandths.
    pub n: u64,
    /// Hundred-thousandths.
    pub m: u64,
    pub m_limit: u64,
    /// Microradians.
    pub rotation: u64,
    pub rotation_limit: u64,
    /// The m test is dropped, whatever m is.
    pub m_dropped: bool,
    /// m exceeds its limit, whether the test is dropped or not.
    pub m_above: bool,
    /// The rotation exceeds its limit.
    pub rotation_above: bool,
    pub over: bool,
}

pub const COLUMN_A: u8 = 1;
pub const COLUMN_B: u8 = 2;
pub const COLUMN_C: u8 = 3;
pub const WALL_A: u8 = 4;
pub const WALL_B: u8 = 5;

/// A member judged singly, given k, the form and whether its storey's walls
/// carry 0.40 of the storey shear in each case. A finding for each case of the
/// form; what is given for cases that the form lacks is not looked at.
pub fn judge_member(
    k: u64,
    form: u64,
    storey_meets_wall_share: [bool; 4],
    m: &Member,
) -> Result<Vec<MemberFinding>, Refusal> {
    check_member_call(k, form, m)?;
    let cases = 0..cases_of(form);
    Ok(cases
        .map(|i| find(k, storey_meets_wall_share[i], m, &m.cases[i]))
        .collect())
}

/// The finding of a checked record in one of its cases.
pub(crate) fn find(
    k: u64,
    storey_meets_wall_share: bool,
    m: &Member,
    load: &LoadCase,
) -> MemberFinding {
    let class = class(k, m, load);
    let ratio = moment_ratio(k, load);
    let (m_limit, rotation_limit) = limits(class, m, load);

    let m_dropped = is_wall(m)
        && load.drift < 7_500
        && shear_demand_below_capacity(k, load)
        && storey_meets_wall_share;
    let m_above = ratio > m_limit;
    let rotation_above = load.rotation as i128 > rotation_limit;

    MemberFinding {
        class,
        n_d: axial_ratio(m.n_d, m) as u64,
        n: axial_ratio(load.n_k, m) as u64,
        m: ratio as u64,
        m_limit: m_limit as u64,
        rotation: load.rotation,
        rotation_limit: rotation_limit as u64,
        m_dropped,
        m_above,
        rotation_above,
        over: (m_above && !m_dropped) || rotation_above,
    }
}

// ---- class, exact ----

pub(crate) fn is_wall(m: &Member) -> bool {
    m.long_side >= 5 * m.short_side
}

fn class(k: u64, m: &Member, load: &LoadCase) -> u8 {
    if is_wall(m) {
        wall_class(k, m, load)
    } else {
        column_class(k, m, load)
    }
}

fn column_class(k: u64, m: &Member, load: &LoadCase) -> u8 {
    let detailed = detailed(m);
    if 1000 * load.v_e <= 7 * k * load.v_r {
        if detailed {
            COLUMN_A
        } else {
            COLUMN_B
        }
    } else if detailed || 1000 * load.v_e <= 11 * k * load.v_r {
        COLUMN_B
    } else {
        COLUMN_C
    }
}

fn detailed(m: &Member) -> bool {
    m.s <= 100 && m.hooks == 1 && 100 * m.a_sh * m.f_yw >= 6 * m.f_cm * m.s * m.b_k
}

fn wall_class(k: u64, m: &Member, load: &LoadCase) -> u8 {
    if m.h_w >= 2 * m.long_side && shear_demand_below_capacity(k, load) {
        WALL_A
    } else {
        WALL_B
    }
}

fn shear_demand_below_capacity(k: u64, load: &LoadCase) -> bool {
    100 * load.v_e < k * load.v_r
}

// ---- ratios ----

impl Grid {
    /// The ratio counted on this grid, not yet rounded.
    fn counted(&self, ratio: Fraction) -> Fraction {
        ratio.times(Fraction::whole(self.steps))
    }

    fn up(&self, ratio: Fraction) -> i128 {
        self.counted(ratio).rounded_up().min(self.cap)
    }

    fn down(&self, ratio: Fraction) -> i128 {
        self.counted(ratio).rounded_down().min(self.cap)
    }
}

/// n from N_K, n_D from N_D. 0.1 kN over 0.1 MPa x mm² is 1,000.
pub(crate) fn axial_ratio(force: i64, m: &Member) -> i128 {
    if force <= 0 {
        return 0;
    }
    RATIO_GRID.up(Fraction::new(
        1_000 * force as i128,
        m.f_cm as i128 * m.a_c as i128,
    ))
}

/// m. k counts hundredths.
fn moment_ratio(k: u64, load: &LoadCase) -> i128 {
    RATIO_GRID.up(Fraction::new(
        100 * load.m_e as i128,
        k as i128 * load.m_p as i128,
    ))
}

/// v. 0.1 kN over mm x mm x 0.01 MPa is 10,000.
fn wall_stress(m: &Member, load: &LoadCase) -> i128 {
    RATIO_GRID.up(Fraction::new(
        10_000 * load.v_e as i128,
        m.short_side as i128 * m.d as i128 * m.f_ctm as i128,
    ))
}

/// ρ.
fn hoop_ratio(m: &Member) -> i128 {
    HOOP_GRID.down(Fraction::new(m.a_sh as i128, m.s as i128 * m.b_k as i128))
}

// ---- tables ----

/// Where the rows of the columns stand, by n.
const COLUMN_N: [i128; 4] = [10_000, 60_000, 70_000, 100_000];

/// Class C has the last two of them.
const COLUMN_C_N: [i128; 2] = [COLUMN_N[2], COLUMN_N[3]];

/// Where the rows of column B stand, by ρ.
const COLUMN_B_RHO: [i128; 2] = [500, 6_000];

/// Where the rows of wall A stand, by n.
const WALL_A_N: [i128; 2] = [10_000, 25_000];

/// Where the rows of walls stand, by v.
const WALL_V: [i128; 2] = [90_000, 130_000];

/// The limit of m, hundred-thousandths, and the limit of rotation, microradians.
type Limits = (i128, i128);

/// At each n.
const COLUMN_A_LIMITS: [Limits; 4] = [
    (600_000, 40_000),
    (300_000, 15_000),
    (100_000, 5_000),
    (100_000, 0),
];

/// At each ρ: at each n.
const COLUMN_B_LIMITS: [[Limits; 4]; 2] = [
    [
        (250_000, 12_500),
        (125_000, 5_000),
        (100_000, 5_000),
        (100_000, 0),
    ],
    [
        (600_000, 35_000),
        (300_000, 10_000),
        (100_000, 5_000),
        (100_000, 0),
    ],
];

/// At each n of class C.
const COLUMN_C_LIMITS: [Limits; 2] = [(100_000, 5_000), (100_000, 0)];

/// With boundary zone, at each n: at each v.
const WALL_A_ZONE_LIMITS: [[Limits; 2]; 2] = [
    [(700_000, 30_000), (400_000, 15_000)],
    [(400_000, 20_000), (250_000, 10_000)],
];

/// Without boundary zone, at each n: at each v.
const WALL_A_PLAIN_LIMITS: [[Limits; 2]; 2] = [
    [(450_000, 15_000), (250_000, 7_500)],
    [(250_000, 10_000), (150_000, 5_000)],
];

/// At each v.
const WALL_B_LIMITS: [Limits; 2] = [(500_000, 20_000), (250_000, 10_000)];

/// A limit of m and a limit of rotation, not yet rounded.
type Pair = (Fraction, Fraction);

/// Linear between the places and constant outside.
fn linear<const N: usize>(places: &[i128; N], values: &[Pair; N], x: i128) -> Pair {
    if x <= places[0] {
        return values[0];
    }
    if x >= places[N - 1] {
        return values[N - 1];
    }
    let mut i = 0;
    while x > places[i + 1] {
        i += 1;
    }
    let part = Fraction::new(x - places[i], places[i + 1] - places[i]);
    let on_line = |from: Fraction, to: Fraction| from.plus(to.minus(from).times(part));
    let (a, b) = (values[i], values[i + 1]);
    (on_line(a.0, b.0), on_line(a.1, b.1))
}

/// A table of one entry.
fn by_one<const N: usize>(places: &[i128; N], limits: &[Limits; N], x: i128) -> Pair {
    let values = limits.map(|(m, rotation)| (Fraction::whole(m), Fraction::whole(rotation)));
    linear(places, &values, x)
}

/// A table of two entries: y within each row, then x between the rows.
fn by_two<const N: usize, const L: usize>(
    x_places: &[i128; N],
    y_places: &[i128; L],
    limits: &[[Limits; L]; N],
    x: i128,
    y: i128,
) -> Pair {
    let values = limits.map(|row| by_one(y_places, &row, y));
    linear(x_places, &values, x)
}

/// The limits of the class before strengthening and factor.
fn table_limits(class: u8, n: i128, rho: i128, v: i128, zone: bool) -> Pair {
    match class {
        COLUMN_A => by_one(&COLUMN_N, &COLUMN_A_LIMITS, n),
        COLUMN_B => by_two(&COLUMN_B_RHO, &COLUMN_N, &COLUMN_B_LIMITS, rho, n),
        COLUMN_C => by_one(&COLUMN_C_N, &COLUMN_C_LIMITS, n),
        WALL_A if zone => by_two(&WALL_A_N, &WALL_V, &WALL_A_ZONE_LIMITS, n, v),
        WALL_A => by_two(&WALL_A_N, &WALL_V, &WALL_A_PLAIN_LIMITS, n, v),
        _ => by_one(&WALL_V, &WALL_B_LIMITS, v),
    }
}

/// What a strengthened member keeps of both limits.
fn strengthened_part(class: u8, annex_e: bool) -> Fraction {
    match class {
        COLUMN_A | COLUMN_B => Fraction::new(3, 4),
        WALL_B if !annex_e => Fraction::new(1, 2),
        _ => Fraction::whole(1),
    }
}

/// The part kept, then the factor on the rotation limit, then rounding down.
fn finished_limits(part: Fraction, factor: u64, table: Pair) -> (i128, i128) {
    let m_limit = table.0.times(part);
    let rotation_limit = table
        .1
        .times(part)
        .times(Fraction::new(factor as i128, 100));
    (m_limit.rounded_down(), rotation_limit.rounded_down())
}

/// The limit of m and the limit of rotation.
fn limits(class: u8, m: &Member, load: &LoadCase) -> (i128, i128) {
    let n = axial_ratio(load.n_k, m);
    let table = table_limits(
        class,
        n,
        hoop_ratio(m),
        wall_stress(m, load),
        m.boundary_zone == 1,
    );
    let part = if m.strengthened == 1 {
        strengthened_part(class, m.annex_e == 1)
    } else {
        Fraction::whole(1)
    };
    finished_limits(part, m.factor, table)
}

#[cfg(test)]
mod tests {
    use super::*;

    fn rounded(class: u8, n: i128, rho: i128, v: i128, zone: bool) -> (i128, i128) {
        let table = table_limits(class, n, rho, v, zone);
        finished_limits(Fraction::whole(1), 100, table)
    }

    /// Document 01's formulas with numbers ten times as large for the finer grid.
    #[test]
    fn ratios_as_written() {
        let up = |a: u128, b: u128| a.div_ceil(b).min(9_999_999) as i128;
        for (f_cm, a_c, force) in [
            (100, 90_000, 3_150),
            (100, 90_000, 1),
            (137, 123_457, 2_718),
            (9_999, 9_999_999, 1),
            (9_999, 9_999_999, 9_999_999),
            (1, 1, 1),
            (1_000, 100_000, 9_999_998),
            (1_000, 99_999, 9_999_998),
        ] {
            let m = Member {
                f_cm,
                a_c,
                ..Member::default()
            };
            let product = f_cm as u128 * a_c as u128;
            let expected = up(100_000_000 * force as u128, product);
            assert_eq!(axial_ratio(force, &m), expected);
            assert_eq!(axial_ratio(-force, &m), 0);
        }
        for (k, m_e, m_p) in [
            (100, 600, 200),
            (90, 600, 200),
            (90, 1, 9_999_999),
            (100, 9_999_999, 1),
            (100, 9_999_998, 100_000),
            (90, 0, 7),
        ] {
            let load = LoadCase {
                m_e,
                m_p,
                ..LoadCase::default()
            };
            let product = k as u128 * m_p as u128;
            let expected = up(10_000_000 * m_e as u128, product);
            assert_eq!(moment_ratio(k, &load), expected);
        }
        for (short_side, d, f_ctm, v_e) in [
            (200, 5_000, 1_000, 90_000),
            (250, 1_870, 113, 4_321),
            (99_999, 99_999, 9_999, 1),
            (1, 1, 1, 9_999_999),
            (1, 1, 1, 0),
        ] {
            let m = Member {
                short_side,
                d,
                f_ctm,
                ..Member::default()
            };
            let load = LoadCase {
                v_e,
                ..LoadCase::default()
            };
            let product = short_side as u128 * d as u128 * f_ctm as u128;
            let expected = up(1_000_000_000 * v_e as u128, product);
            assert_eq!(wall_stress(&m, &load), expected);
        }
        // ρ keeps its grid, its cap and its side.
        for (a_sh, s, b_k, rho) in [
            (100, 200, 250, 2_000),
            (1, 200, 251, 19),
            (0, 200, 250, 0),
            (99_999, 100, 1_000, 999_990),
            (99_999, 1, 99_999, 999_999),
            (99_999, 1, 1, 999_999),
        ] {
            let m = Member {
                a_sh,
                s,
                b_k,
                ..Member::default()
            };
            assert_eq!(hoop_ratio(&m), rho);
        }
    }

    #[test]
    fn rows_of_the_tables() {
        for (n, m, rotation) in [
            (0, 600_000, 40_000),
            (10_000, 600_000, 40_000),
            (60_000, 300_000, 15_000),
            (70_000, 100_000, 5_000),
            (100_000, 100_000, 0),
            (9_999_999, 100_000, 0),
        ] {
            assert_eq!(rounded(COLUMN_A, n, 0, 0, false), (m, rotation));
        }
        for (rho, n, m, rotation) in [
            (0, 0, 250_000, 12_500),
            (500, 10_000, 250_000, 12_500),
            (500, 60_000, 125_000, 5_000),
            (500, 70_000, 100_000, 5_000),
            (500, 100_000, 100_000, 0),
            (6_000, 10_000, 600_000, 35_000),
            (6_000, 60_000, 300_000, 10_000),
            (6_000, 70_000, 100_000, 5_000),
            (6_000, 100_000, 100_000, 0),
            (999_999, 9_999_999, 100_000, 0),
        ] {
            assert_eq!(rounded(COLUMN_B, n, rho, 0, false), (m, rotation));
        }
        for (n, m, rotation) in [
            (0, 100_000, 5_000),
            (70_000, 100_000, 5_000),
            (100_000, 100_000, 0),
            (9_999_999, 100_000, 0),
        ] {
            assert_eq!(rounded(COLUMN_C, n, 0, 0, false), (m, rotation));
        }
        for (zone, n, v, m, rotation) in [
            (true, 0, 0, 700_000, 30_000),
            (true, 10_000, 90_000, 700_000, 30_000),
            (true, 10_000, 130_000, 400_000, 15_000),
            (true, 25_000, 90_000, 400_000, 20_000),
            (true, 25_000, 130_000, 250_000, 10_000),
            (true, 9_999_999, 9_999_999, 250_000, 10_000),
            (false, 0, 0, 450_000, 15_000),
            (false, 10_000, 90_000, 450_000, 15_000),
            (false, 10_000, 130_000, 250_000, 7_500),
            (false, 25_000, 90_000, 250_000, 10_000),
            (false, 25_000, 130_000, 150_000, 5_000),
            (false, 9_999_999, 9_999_999, 150_000, 5_000),
        ] {
            assert_eq!(rounded(WALL_A, n, 0, v, zone), (m, rotation));
        }
        for (v, m, rotation) in [
            (0, 500_000, 20_000),
            (90_000, 500_000, 20_000),
            (130_000, 250_000, 10_000),
            (9_999_999, 250_000, 10_000),
        ] {
            assert_eq!(rounded(WALL_B, 50_000, 0, v, true), (m, rotation));
        }
    }

    #[test]
    fn beside_the_rows() {
        // One hundred-thousandth past a row: less 6 and 1/2, less 20 and 1.
        assert_eq!(rounded(COLUMN_A, 10_001, 0, 0, false), (599_994, 39_999));
        assert_eq!(rounded(COLUMN_A, 10_002, 0, 0, false), (599_988, 39_999));
        assert_eq!(rounded(COLUMN_A, 60_001, 0, 0, false), (299_980, 14_999));
        // Each step 1/6: 5,000 - 1/6, - 6/6, - 7/6.
        assert_eq!(rounded(COLUMN_A, 70_001, 0, 0, false), (100_000, 4_999));
        assert_eq!(rounded(COLUMN_C, 70_006, 0, 0, false), (100_000, 4_999));
        assert_eq!(rounded(COLUMN_C, 70_007, 0, 0, false), (100_000, 4_998));
        // ρ one millionth up: 250,000 + 350,000 / 5,500, 12,500 + 22,500 / 5,500.
        assert_eq!(rounded(COLUMN_B, 0, 501, 0, false), (250_063, 12_504));
        // 700,000 - 20 and 30,000 - 2/3; 700,000 - 7.5 and 30,000 - 3/8.
        assert_eq!(rounded(WALL_A, 10_001, 0, 0, true), (699_980, 29_999));
        assert_eq!(rounded(WALL_A, 0, 0, 90_001, true), (699_992, 29_999));
        // 500,000 - 6.25 and 20,000 - 1/4.
        assert_eq!(rounded(WALL_B, 0, 0, 90_001, false), (499_993, 19_999));
    }

    #[test]
    fn rounded_once() {
        let whole = Fraction::whole(1);
        let three_quarters = Fraction::new(3, 4);
        let half = Fraction::new(1, 2);
        // 3/4 of 16/3 is 4; rounded before, it would be 3.
        let pair = (Fraction::new(16, 3), Fraction::new(16, 3));
        assert_eq!(finished_limits(whole, 100, pair), (5, 5));
        assert_eq!(finished_limits(three_quarters, 100, pair), (4, 4));
        // 80 / 100 of 25/4 is 5; rounded before, it would be 4.
        let pair = (Fraction::new(25, 4), Fraction::new(25, 4));
        assert_eq!(finished_limits(whole, 80, pair), (6, 5));
        assert_eq!(finished_limits(whole, 0, pair), (6, 0));
        // 3/4 of 80 / 100 of 25/3 is 5; rounded between, it would be 4.
        let pair = (Fraction::new(25, 3), Fraction::new(25, 3));
        assert_eq!(finished_limits(three_quarters, 80, pair), (6, 5));
        // 1/2 of 80 / 100 of 25/2 is 5; rounded between, it would be 4.
        let pair = (Fraction::new(25, 2), Fraction::new(25, 2));
        assert_eq!(finished_limits(half, 80, pair), (6, 5));
    }

    #[test]
    fn parts_of_strengthened_members() {
        for annex_e in [false, true] {
            let part = |class| strengthened_part(class, annex_e);
            assert_eq!(part(COLUMN_A), Fraction::new(3, 4));
            assert_eq!(part(COLUMN_B), Fraction::new(3, 4));
            assert_eq!(part(COLUMN_C), Fraction::whole(1));
            assert_eq!(part(WALL_A), Fraction::whole(1));
        }
        assert_eq!(strengthened_part(WALL_B, false), Fraction::new(1, 2));
        assert_eq!(strengthened_part(WALL_B, true), Fraction::whole(1));
    }
}
