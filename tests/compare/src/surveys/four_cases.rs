//! Surveys in four load cases: 1 and 2 are the two senses along the building, 3 and 4 those across it.
use super::building;
use super::old_form::{added_wall, column, column_beside_walls, wall};
use independent::lines::CASE_FORM;
use independent::{Header, LoadCase, Member, Storey, Survey};

/// Two walls, the first with boundary zone, and two kinds of columns, two of each. The storey shears are above the totals of V.
pub fn walls_one_direction() -> Survey {
    let of_wall = [
        LoadCase { n_k: 9_600, m_e: 70_000, m_p: 16_000, v_e: 6_300, v_r: 9_500, v: 10_500, rotation: 4_700, drift: 4_900 },
        LoadCase { n_k: 8_700, m_e: 69_000, m_p: 15_700, v_e: 6_200, v_r: 9_500, v: 10_300, rotation: 4_600, drift: 4_800 },
        LoadCase { n_k: 9_300, m_e: 9_000, m_p: 2_000, v_e: 1_400, v_r: 2_000, v: 2_500, rotation: 5_200, drift: 6_900 },
        LoadCase { n_k: 8_900, m_e: 8_900, m_p: 1_980, v_e: 1_390, v_r: 2_000, v: 2_450, rotation: 5_100, drift: 6_800 },
    ];
    let of_column = [
        LoadCase { n_k: 5_600, m_e: 2_500, m_p: 1_800, v_e: 1_000, v_r: 1_700, v: 1_400, rotation: 4_800, drift: 4_900 },
        LoadCase { n_k: 5_250, m_e: 2_450, m_p: 1_780, v_e: 990, v_r: 1_700, v: 1_380, rotation: 4_700, drift: 4_800 },
        LoadCase { n_k: 5_700, m_e: 1_900, m_p: 1_100, v_e: 800, v_r: 1_200, v: 3_000, rotation: 7_000, drift: 6_900 },
        LoadCase { n_k: 5_450, m_e: 1_880, m_p: 1_090, v_e: 790, v_r: 1_200, v: 2_950, rotation: 6_900, drift: 6_800 },
    ];
    let wall = Member { n_d: 9_000, cases: of_wall, ..wall() };
    let column = Member { n_d: 5_200, cases: of_column, ..column_beside_walls() };
    let heavier = Member { n_d: 6_800, cases: of_column.map(|load| LoadCase { n_k: load.n_k + 1_400, ..load }), ..column };
    let floor = vec![Member { boundary_zone: 1, ..wall }, wall, column, column, heavier, heavier];
    let header = Header { knowledge: 90, height: 3_000, storeys: 1, tilt_1: 400, tilt_2: 300, form: CASE_FORM, ..Header::default() };
    let mut survey = building(header, &[floor]);
    survey.storeys[0].shears = [27_000, 26_500, 17_200, 17_000];
    survey
}

/// Two added walls, not detailed to annex E, between four columns: along the walls the shear demand is above the capacity, across it is below.
pub fn strengthened_wall() -> Survey {
    let of_wall = [
        LoadCase { n_k: 6_900, m_e: 47_000, m_p: 18_000, v_e: 8_700, v_r: 9_500, v: 7_600, rotation: 8_300, drift: 8_100 },
        LoadCase { n_k: 6_500, m_e: 46_500, m_p: 17_900, v_e: 8_600, v_r: 9_500, v: 7_500, rotation: 8_200, drift: 8_000 },
        LoadCase { n_k: 6_800, m_e: 7_200, m_p: 2_600, v_e: 1_500, v_r: 2_400, v: 1_900, rotation: 9_300, drift: 9_600 },
        LoadCase { n_k: 6_600, m_e: 7_100, m_p: 2_580, v_e: 1_480, v_r: 2_400, v: 1_850, rotation: 9_200, drift: 9_500 },
    ];
    let of_column = [
        LoadCase { n_k: 5_600, m_e: 2_500, m_p: 1_800, v_e: 1_000, v_r: 1_700, v: 1_400, rotation: 7_800, drift: 8_100 },
        LoadCase { n_k: 5_250, m_e: 2_450, m_p: 1_780, v_e: 990, v_r: 1_700, v: 1_380, rotation: 7_700, drift: 8_000 },
        LoadCase { n_k: 5_700, m_e: 1_900, m_p: 1_100, v_e: 800, v_r: 1_200, v: 3_000, rotation: 9_000, drift: 9_600 },
        LoadCase { n_k: 5_450, m_e: 1_880, m_p: 1_090, v_e: 790, v_r: 1_200, v: 2_950, rotation: 8_900, drift: 9_500 },
    ];
    let wall = Member { n_d: 6_200, cases: of_wall, ..added_wall() };
    let column = Member { n_d: 5_200, cases: of_column, ..column_beside_walls() };
    let header = Header { knowledge: 90, height: 6_000, storeys: 2, tilt_1: 300, tilt_2: 200, form: CASE_FORM, ..Header::default() };
    building(header, &[vec![wall, column, column, wall, column, column]])
}

// ---- blocks: each column by its case 1, from which cases 2 to 4 follow; across, moments and shears are parts of those along ----

fn cases_on_ground(first: LoadCase) -> [LoadCase; 4] {
    let LoadCase { n_k, m_e, m_p, v_e, v_r, v, rotation, drift } = first;
    let second = LoadCase { n_k: n_k - 900, m_e: m_e - 100, m_p: m_p - 40, v_e: v_e - 10, v_r, v: v - 50, rotation: rotation - 300, drift: drift - 300 };
    let (m_e, m_p, v_e, v_r) = (m_e * 60 / 100, m_p * 60 / 100, v_e * 70 / 100, v_r * 70 / 100);
    let third = LoadCase { n_k: n_k + 150, m_e, m_p, v_e, v_r, v: v - 150, rotation: rotation + 300, drift: drift + 400 };
    let fourth = LoadCase { n_k: n_k - 700, m_e: m_e - 60, m_p: m_p - 20, v_e: v_e - 10, v_r, v: v - 200, rotation: rotation - 100, drift: drift + 100 };
    [first, second, third, fourth]
}

fn cases_on_top(first: LoadCase) -> [LoadCase; 4] {
    let LoadCase { n_k, m_e, m_p, v_e, v_r, v, rotation, drift } = first;
    let second = LoadCase { n_k: n_k - 400, m_e: m_e - 50, m_p: m_p - 20, v_e: v_e - 10, v_r, v: v - 30, rotation: rotation - 200, drift: drift - 200 };
    let (m_e, m_p, v_e, v_r) = (m_e * 60 / 100, m_p * 60 / 100, v_e * 70 / 100, v_r * 70 / 100);
    let third = LoadCase { n_k: n_k + 100, m_e, m_p, v_e, v_r, v: v - 100, rotation: rotation + 200, drift: drift + 300 };
    let fourth = LoadCase { n_k: n_k - 300, m_e: m_e - 30, m_p: m_p - 10, v_e: v_e - 5, v_r, v: v - 120, rotation: rotation + 100, drift: drift + 100 };
    [first, second, third, fourth]
}

/// On each of the two floors columns 1 and 4 are alike.
pub fn risky_in_case_3() -> Survey {
    let ground = |n_d, first| Member { n_d, cases: cases_on_ground(first), ..column() };
    let top = |n_d, first| Member { n_d, cases: cases_on_top(first), ..column() };
    let floors = [
        [
            ground(3_600, LoadCase { n_k: 4_300, m_e: 3_300, m_p: 1_550, v_e: 930, v_r: 1_500, v: 2_000, rotation: 8_700, drift: 9_500 }),
            ground(6_300, LoadCase { n_k: 6_700, m_e: 3_600, m_p: 1_750, v_e: 940, v_r: 1_500, v: 2_700, rotation: 9_300, drift: 9_500 }),
            ground(5_400, LoadCase { n_k: 5_900, m_e: 3_500, m_p: 1_700, v_e: 935, v_r: 1_500, v: 2_300, rotation: 9_000, drift: 9_500 }),
        ],
        [
            top(1_800, LoadCase { n_k: 2_200, m_e: 1_700, m_p: 1_150, v_e: 690, v_r: 1_460, v: 950, rotation: 4_900, drift: 5_400 }),
            top(3_100, LoadCase { n_k: 3_300, m_e: 2_000, m_p: 1_300, v_e: 780, v_r: 1_460, v: 1_250, rotation: 5_200, drift: 5_400 }),
            top(2_700, LoadCase { n_k: 2_950, m_e: 1_900, m_p: 1_250, v_e: 750, v_r: 1_460, v: 1_150, rotation: 5_100, drift: 5_400 }),
        ],
    ];
    let header = Header { knowledge: 90, height: 6_000, storeys: 2, tilt_1: 1_200, tilt_2: 800, form: CASE_FORM, ..Header::default() };
    let mut survey = building(header, &floors.map(|[a, b, c]| vec![a, b, c, a]));
    // By this moment column 2 of the ground floor is over in case 3.
    survey.members[1].cases[2].m_e = 2_600;
    survey
}

fn cases_beside_strengthened(first: LoadCase) -> [LoadCase; 4] {
    let LoadCase { n_k, m_e, m_p, v_e, v_r, v, rotation, drift } = first;
    let second = LoadCase { n_k: n_k - 600, m_e: m_e - 100, m_p: m_p - 40, v_e: v_e - 20, v_r, v: v - 60, rotation: rotation + 300, drift: drift - 200 };
    let (m_e, m_p, v_e, v_r) = (m_e * 62 / 100, m_p * 62 / 100, v_e * 70 / 100, v_r * 70 / 100);
    let third = LoadCase { n_k: n_k + 200, m_e, m_p, v_e, v_r, v: v - 100, rotation: rotation + 100, drift: drift + 300 };
    let fourth = LoadCase { n_k: n_k - 400, m_e: m_e - 50, m_p: m_p - 30, v_e: v_e - 10, v_r, v: v - 140, rotation: rotation + 200, drift: drift + 100 };
    [first, second, third, fourth]
}

/// On each of the two floors column 1 is strengthened, and columns 2 and 3 are alike.
pub fn strengthened_column_first() -> Survey {
    let column = |n_d, first| Member { n_d, cases: cases_beside_strengthened(first), ..column() };
    let floors = [
        [
            column(5_000, LoadCase { n_k: 5_400, m_e: 2_600, m_p: 1_500, v_e: 900, v_r: 1_500, v: 2_000, rotation: 9_900, drift: 11_200 }),
            column(5_000, LoadCase { n_k: 5_400, m_e: 3_500, m_p: 1_500, v_e: 900, v_r: 1_500, v: 2_400, rotation: 10_900, drift: 11_200 }),
            column(5_000, LoadCase { n_k: 5_400, m_e: 3_400, m_p: 1_500, v_e: 900, v_r: 1_500, v: 2_300, rotation: 10_700, drift: 11_200 }),
        ],
        [
            column(2_500, LoadCase { n_k: 2_700, m_e: 2_000, m_p: 1_300, v_e: 780, v_r: 1_480, v: 1_500, rotation: 7_900, drift: 8_600 }),
            column(2_500, LoadCase { n_k: 2_700, m_e: 2_600, m_p: 1_300, v_e: 780, v_r: 1_480, v: 1_800, rotation: 8_400, drift: 8_600 }),
            column(2_500, LoadCase { n_k: 2_700, m_e: 2_500, m_p: 1_300, v_e: 780, v_r: 1_480, v: 1_700, rotation: 8_300, drift: 8_600 }),
        ],
    ];
    let header = Header { knowledge: 90, height: 6_000, storeys: 2, tilt_1: 500, tilt_2: 700, form: CASE_FORM, ..Header::default() };
    let mut survey = building(header, &floors.map(|[a, b, c]| vec![Member { strengthened: 1, ..a }, b, b, c]));
    // On the second floor column 1 is listed after column 2.
    survey.members.swap(4, 5);
    survey
}

/// Two corner columns that the first sense along the building lifts, two that the second lifts, and a column that hangs from the beams above.
pub fn tension() -> Survey {
    let pressed = LoadCase { n_k: 2_450, m_e: 2_300, m_p: 1_350, v_e: 820, v_r: 1_480, v: 1_500, rotation: 7_200, drift: 7_800 };
    let lifted = LoadCase { n_k: -250, m_p: 900, v_e: 610, v_r: 1_400, v: 1_450, m_e: 2_100, ..pressed };
    let across = LoadCase { n_k: 1_300, m_e: 1_400, m_p: 800, v_e: 560, v_r: 1_000, v: 1_400, rotation: 7_500, drift: 8_100 };
    let back = LoadCase { n_k: 900, m_p: 760, ..across };
    let hung = |n_k| LoadCase { n_k, m_e: 900, m_p: 800, v_e: 500, v_r: 1_350, v: 600, rotation: 7_000, drift: 7_800 };
    let corner = |first, second| Member { n_d: 1_100, cases: [first, second, across, back], ..column() };
    let hanger = Member { n_d: -350, cases: [-420, -380, -400, -390].map(hung), ..column() };
    let (near, far) = (corner(lifted, pressed), corner(pressed, lifted));
    let header = Header { knowledge: 90, height: 9_000, storeys: 3, tilt_1: 300, tilt_2: 200, form: CASE_FORM, ..Header::default() };
    building(header, &[vec![near, near, hanger, far, far]])
}

// ---- fields that all differ ----

/// The member with its other fields counted down from its number, and its loads from case to case.
fn counting_down(given: Member) -> Member {
    let n = given.number;
    let load = |i: u64| {
        let (n_k, n) = (given.n_d - 1 - i as i64, n - 100 * i);
        LoadCase { n_k, m_e: n - 19, m_p: n - 20, v_e: n - 21, v_r: n - 22, v: n - 23, rotation: n - 24, drift: n - 25 }
    };
    Member {
        long_side: n - 1,
        short_side: n - 2,
        a_c: n - 3,
        f_cm: n - 4,
        f_ctm: n - 5,
        f_yw: n - 6,
        d: n - 7,
        h_w: n - 8,
        s: n - 9,
        b_k: n - 10,
        a_sh: n - 11,
        cases: [0, 1, 2, 3].map(load),
        ..given
    }
}

/// Each of three marks is set in a column of its own, the fourth in the two that are not strengthened.
pub fn every_field_apart() -> Survey {
    let given = [
        Member { number: 1_000, hooks: 1, factor: 91, damage_kind: 2, n_d: 83, annex_e: 1, ..Member::default() },
        Member { number: 2_000, boundary_zone: 1, factor: 92, damage_kind: 3, n_d: -217, annex_e: 1, ..Member::default() },
        Member { number: 3_000, strengthened: 1, factor: 93, damage_kind: 4, n_d: 283, ..Member::default() },
    ];
    Survey {
        header: Header { knowledge: 90, height: 9_001, storeys: 3, tilt_1: 1_202, tilt_2: 803, storey_count: 2, form: CASE_FORM },
        storeys: vec![
            Storey { number: 71, shears: [5_002, 5_103, 5_204, 5_305], count: 1 },
            Storey { number: 82, shears: [6_003, 6_104, 6_205, 6_306], count: 2 },
        ],
        members: given.map(counting_down).to_vec(),
    }
}
