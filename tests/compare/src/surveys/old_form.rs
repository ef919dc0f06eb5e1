//! Surveys with one load case, and the column and the wall of all samples.
use super::building;
use generator::one_case;
use independent::lines::OLD_FORM;
use independent::{Header, LoadCase, Member, Survey};

/// A column of 500 × 300 mm in weak concrete, with few hoops.
pub fn column() -> Member {
    Member {
        long_side: 500,
        short_side: 300,
        a_c: 150_000,
        f_cm: 120,
        f_ctm: 121,
        f_yw: 2_200,
        d: 460,
        h_w: 3_000,
        s: 200,
        b_k: 250,
        a_sh: 100,
        factor: 100,
        ..Member::default()
    }
}

/// The same in the concrete of the walls.
pub fn column_beside_walls() -> Member {
    Member { f_cm: 160, f_ctm: 140, ..column() }
}

/// A wall of 2000 × 250 mm without boundary zone.
pub fn wall() -> Member {
    Member {
        long_side: 2_000,
        short_side: 250,
        a_c: 500_000,
        f_cm: 160,
        f_ctm: 140,
        f_yw: 4_200,
        d: 1_900,
        h_w: 9_000,
        s: 200,
        b_k: 200,
        a_sh: 157,
        factor: 100,
        ..Member::default()
    }
}

/// The member with this N_D and these loads.
pub fn loaded(member: Member, n_d: i64, load: LoadCase) -> Member {
    Member { n_d, cases: one_case(load), ..member }
}

// ---- blocks ----

pub fn plain_block() -> Survey {
    plain_block_times(1)
}

/// The plain block with so many times its columns on each floor.
pub fn plain_block_times(times: usize) -> Survey {
    let column = |n_d, load| loaded(column(), n_d, load);
    let ground = vec![
        column(3_600, LoadCase { n_k: 4_300, m_e: 3_300, m_p: 1_550, v_e: 930, v_r: 1_500, v: 2_000, rotation: 8_700, drift: 9_500 }),
        column(6_300, LoadCase { n_k: 6_700, m_e: 4_100, m_p: 1_750, v_e: 940, v_r: 1_500, v: 2_700, rotation: 9_300, drift: 9_500 }),
        column(5_400, LoadCase { n_k: 5_900, m_e: 3_500, m_p: 1_700, v_e: 935, v_r: 1_500, v: 2_300, rotation: 9_000, drift: 9_500 }),
        column(3_600, LoadCase { n_k: 4_300, m_e: 3_300, m_p: 1_550, v_e: 930, v_r: 1_500, v: 2_000, rotation: 8_700, drift: 9_500 }),
    ];
    // Its last column is the short one by the stair.
    let second = vec![
        column(2_400, LoadCase { n_k: 2_800, m_e: 2_900, m_p: 1_350, v_e: 810, v_r: 1_480, v: 1_750, rotation: 7_900, drift: 8_600 }),
        column(4_200, LoadCase { n_k: 4_450, m_e: 3_300, m_p: 1_550, v_e: 930, v_r: 1_480, v: 2_150, rotation: 8_400, drift: 8_600 }),
        column(3_600, LoadCase { n_k: 3_900, m_e: 3_100, m_p: 1_500, v_e: 900, v_r: 1_480, v: 2_000, rotation: 8_100, drift: 8_600 }),
        column(2_400, LoadCase { n_k: 2_800, m_e: 2_200, m_p: 1_350, v_e: 1_620, v_r: 1_480, v: 1_500, rotation: 7_100, drift: 8_600 }),
    ];
    let third = vec![
        column(1_200, LoadCase { n_k: 1_400, m_e: 1_700, m_p: 1_150, v_e: 690, v_r: 1_460, v: 950, rotation: 4_900, drift: 5_400 }),
        column(2_100, LoadCase { n_k: 2_200, m_e: 2_000, m_p: 1_300, v_e: 780, v_r: 1_460, v: 1_250, rotation: 5_200, drift: 5_400 }),
        column(1_800, LoadCase { n_k: 1_950, m_e: 1_900, m_p: 1_250, v_e: 750, v_r: 1_460, v: 1_150, rotation: 5_100, drift: 5_400 }),
        column(1_200, LoadCase { n_k: 1_400, m_e: 1_700, m_p: 1_150, v_e: 690, v_r: 1_460, v: 950, rotation: 4_900, drift: 5_400 }),
    ];
    let header = Header { knowledge: 90, height: 9_000, storeys: 3, tilt_1: 1_200, tilt_2: 800, form: OLD_FORM, ..Header::default() };
    building(header, &[ground, second, third].map(|floor| floor.repeat(times)))
}

/// On each floor two walls, the first with boundary zone, and two kinds of columns, four of each.
pub fn walls() -> Survey {
    let column = |n_d, load| loaded(column_beside_walls(), n_d, load);
    let wall = |n_d, load| loaded(wall(), n_d, load);
    let ground = [
        wall(9_000, LoadCase { n_k: 9_600, m_e: 70_000, m_p: 16_000, v_e: 6_300, v_r: 9_500, v: 10_500, rotation: 4_700, drift: 4_900 }),
        column(5_200, LoadCase { n_k: 5_600, m_e: 2_500, m_p: 1_800, v_e: 1_000, v_r: 1_700, v: 1_400, rotation: 4_800, drift: 4_900 }),
        column(6_800, LoadCase { n_k: 7_000, m_e: 2_700, m_p: 1_950, v_e: 1_040, v_r: 1_700, v: 1_600, rotation: 4_800, drift: 4_900 }),
    ];
    let second = [
        wall(6_000, LoadCase { n_k: 6_400, m_e: 38_500, m_p: 9_000, v_e: 4_200, v_r: 9_400, v: 4_500, rotation: 5_900, drift: 6_200 }),
        column(3_500, LoadCase { n_k: 3_800, m_e: 2_900, m_p: 1_600, v_e: 960, v_r: 1_650, v: 2_000, rotation: 6_100, drift: 6_200 }),
        column(4_600, LoadCase { n_k: 4_750, m_e: 3_200, m_p: 1_700, v_e: 1_000, v_r: 1_650, v: 2_200, rotation: 6_100, drift: 6_200 }),
    ];
    let floor = |[wall, a, b]: [Member; 3]| vec![Member { boundary_zone: 1, ..wall }, wall, a, a, a, a, b, b, b, b];
    let header = Header { knowledge: 90, height: 9_000, storeys: 3, tilt_1: 400, tilt_2: 300, form: OLD_FORM, ..Header::default() };
    building(header, &[ground, second].map(floor))
}

// ---- each class ----

/// One storey, in a building of so many storeys of 3 m.
pub fn one_storey(knowledge: u64, storeys: u64, members: Vec<Member>) -> Survey {
    let (height, storeys) = (3_000 * storeys, storeys);
    let header = Header { knowledge, height, storeys, tilt_1: 300, tilt_2: 200, form: OLD_FORM, ..Header::default() };
    building(header, &[members])
}

/// Hoops at 100 mm with 135° hooks, low shear.
pub fn column_a() -> Survey {
    let detailed = Member { f_cm: 200, f_ctm: 157, f_yw: 4_200, s: 100, a_sh: 157, hooks: 1, ..column() };
    let columns = vec![
        loaded(detailed, 2_700, LoadCase { n_k: 3_000, m_e: 7_200, m_p: 2_300, v_e: 1_750, v_r: 4_000, v: 5_400, rotation: 11_900, drift: 12_500 }),
        loaded(detailed, 9_900, LoadCase { n_k: 10_500, m_e: 9_000, m_p: 3_300, v_e: 2_500, v_r: 4_000, v: 6_800, rotation: 12_200, drift: 12_500 }),
        loaded(detailed, 18_600, LoadCase { n_k: 19_500, m_e: 6_300, m_p: 3_000, v_e: 2_300, v_r: 4_000, v: 4_800, rotation: 12_000, drift: 12_500 }),
    ];
    one_storey(100, 4, columns)
}

/// Widely spaced hoops.
pub fn column_b() -> Survey {
    let more_hoops = Member { s: 150, a_sh: 157, ..column() };
    let columns = vec![
        loaded(column(), 1_600, LoadCase { n_k: 1_800, m_e: 2_600, m_p: 1_250, v_e: 760, v_r: 1_500, v: 1_900, rotation: 9_900, drift: 11_000 }),
        loaded(column(), 6_000, LoadCase { n_k: 6_300, m_e: 3_900, m_p: 1_700, v_e: 940, v_r: 1_500, v: 2_600, rotation: 10_600, drift: 11_000 }),
        loaded(more_hoops, 6_000, LoadCase { n_k: 6_300, m_e: 3_300, m_p: 1_700, v_e: 1_300, v_r: 1_800, v: 2_500, rotation: 10_200, drift: 11_000 }),
    ];
    one_storey(90, 4, columns)
}

/// Shear demand more than 1.1 times the capacity.
pub fn column_c() -> Survey {
    let short = Member { h_w: 1_500, ..column() };
    let columns = vec![
        loaded(short, 4_500, LoadCase { n_k: 4_800, m_e: 1_300, m_p: 1_600, v_e: 1_650, v_r: 1_500, v: 1_300, rotation: 3_600, drift: 4_200 }),
        loaded(short, 8_800, LoadCase { n_k: 9_000, m_e: 1_900, m_p: 1_800, v_e: 1_800, v_r: 1_500, v: 1_900, rotation: 3_900, drift: 4_200 }),
        loaded(short, 14_400, LoadCase { n_k: 15_300, m_e: 1_500, m_p: 1_900, v_e: 1_900, v_r: 1_500, v: 1_500, rotation: 3_700, drift: 4_200 }),
    ];
    one_storey(90, 4, columns)
}

/// With boundary zone and without.
pub fn wall_a() -> Survey {
    let load = LoadCase { n_k: 14_000, m_e: 72_000, m_p: 19_000, v_e: 7_315, v_r: 9_500, v: 9_600, rotation: 7_600, drift: 7_900 };
    let wall = loaded(Member { h_w: 12_000, ..wall() }, 13_200, load);
    one_storey(100, 4, vec![Member { boundary_zone: 1, ..wall }, wall])
}

/// A wall of 2000 × 250 mm with boundary zone, added in better concrete than that of the building.
pub fn added_wall() -> Member {
    Member { f_cm: 250, f_ctm: 175, boundary_zone: 1, strengthened: 1, ..wall() }
}

/// Two added walls lower than twice their length between four columns.
pub fn strengthened_wall(annex_e: u64) -> Survey {
    let low = Member { h_w: 3_500, annex_e, ..added_wall() };
    let wall = loaded(low, 6_200, LoadCase { n_k: 6_900, m_e: 55_000, m_p: 18_000, v_e: 8_000, v_r: 9_500, v: 7_600, rotation: 7_900, drift: 8_100 });
    let column = loaded(
        column_beside_walls(),
        5_200,
        LoadCase { n_k: 5_600, m_e: 2_500, m_p: 1_800, v_e: 1_000, v_r: 1_700, v: 1_400, rotation: 7_800, drift: 8_100 },
    );
    one_storey(90, 2, vec![wall, column, column, wall, column, column])
}

/// Two walls of a core, with boundary zone and an axial ratio of 0.23, between four columns.
pub fn core_walls(v_e: u64) -> Survey {
    let core = Member { long_side: 3_000, a_c: 750_000, d: 2_850, f_cm: 250, f_ctm: 175, boundary_zone: 1, ..wall() };
    let wall = loaded(core, 41_000, LoadCase { n_k: 43_125, m_e: 76_140, m_p: 18_000, v_e, v_r: 9_500, v: 7_600, rotation: 7_900, drift: 8_100 });
    let column = loaded(
        column_beside_walls(),
        5_200,
        LoadCase { n_k: 5_600, m_e: 2_500, m_p: 1_800, v_e: 1_000, v_r: 1_700, v: 1_400, rotation: 7_800, drift: 8_100 },
    );
    one_storey(90, 3, vec![wall, column, column, wall, column, column])
}

/// One with more shear demand than capacity, one lower than twice its length.
pub fn wall_b() -> Survey {
    let wall = Member { h_w: 6_000, ..wall() };
    let long = Member { long_side: 3_500, a_c: 875_000, d: 3_350, ..wall };
    let walls = vec![
        loaded(wall, 5_200, LoadCase { n_k: 5_600, m_e: 44_000, m_p: 16_000, v_e: 8_200, v_r: 9_000, v: 9_800, rotation: 5_800, drift: 6_100 }),
        loaded(long, 8_400, LoadCase { n_k: 8_900, m_e: 52_000, m_p: 30_000, v_e: 7_900, v_r: 12_500, v: 11_800, rotation: 5_600, drift: 6_100 }),
    ];
    one_storey(90, 2, walls)
}
