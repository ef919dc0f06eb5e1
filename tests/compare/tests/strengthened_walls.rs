//! Walls of both classes, strengthened or not, detailed to annex E or not, at factors 100 and 33, in both forms: the proved calls against the
//! independent program and against the tables' numbers.
use compare::{in_four_cases, judge_member, member_numbers, plain_column, same_building, same_determine, same_member, same_report, FORMS};
use generator::{edge_member_for, is_wall, one_case, sheet_len, write_survey, Rng};
use independent::lines::{CASES, CASE_FORM, OLD_FORM};
use independent::{Header, LoadCase, Member, Storey, Survey};
use llunareth::MemberFinding;

const SEED: u64 = 20_261_118;
const WALL_A: u64 = 4;
const WALL_B: u64 = 5;
const FACTORS: [u64; 2] = [100, 33];

/// A wall's limit of m and its limits of rotation at each of the factors.
type Limits = (u64, [u64; 2]);

/// A wall of class A or B at a place of its table: boundary zone, n and v; its limits, and what they are halved.
struct Place {
    class: u64,
    zone: u64,
    n: i64,
    v: u64,
    table: Limits,
    halved: Limits,
}

fn wall_a(zone: u64, n: i64, v: u64, table: Limits) -> Place {
    Place { class: WALL_A, zone, n, v, table, halved: table }
}

fn wall_b(zone: u64, v: u64, table: Limits, halved: Limits) -> Place {
    Place { class: WALL_B, zone, n: 10_000, v, table, halved }
}

/// At rows of the tables and between them. At v 90,242 the table of class B has 498,487.5 and 19,939.5; half of it times 0.33 is 3,290.0175, which is
/// 3,289 where the limit is rounded before it is halved or before the factor.
fn places() -> Vec<Place> {
    vec![
        wall_a(1, 10_000, 90_000, (700_000, [30_000, 9_900])),
        wall_a(1, 10_000, 130_000, (400_000, [15_000, 4_950])),
        wall_a(1, 17_500, 110_000, (437_500, [18_750, 6_187])),
        wall_a(0, 10_000, 90_000, (450_000, [15_000, 4_950])),
        wall_a(0, 25_000, 130_000, (150_000, [5_000, 1_650])),
        wall_a(0, 17_500, 110_000, (275_000, [9_375, 3_093])),
        wall_b(1, 90_000, (500_000, [20_000, 6_600]), (250_000, [10_000, 3_300])),
        wall_b(0, 90_000, (500_000, [20_000, 6_600]), (250_000, [10_000, 3_300])),
        wall_b(0, 90_242, (498_487, [19_939, 6_580]), (249_243, [9_969, 3_290])),
        wall_b(1, 110_000, (375_000, [15_000, 4_950]), (187_500, [7_500, 2_475])),
        wall_b(0, 130_000, (250_000, [10_000, 3_300]), (125_000, [5_000, 1_650])),
    ]
}

/// The wall at a place, whose n is N_K, v is V_e and, with k 100, m is M_e; of class B by its height.
fn wall(place: &Place) -> Member {
    Member {
        long_side: 500,
        short_side: 100,
        f_ctm: 1_000,
        d: 10_000,
        h_w: if place.class == WALL_A { 1_000 } else { 999 },
        boundary_zone: place.zone,
        cases: one_case(LoadCase { n_k: place.n, m_p: 100_000, v_e: place.v, v_r: 200_000, v: 1, drift: 7_500, ..LoadCase::default() }),
        ..plain_column()
    }
}

/// Each wall, strengthened or not, with each mark and factor, and its limits of m and rotation.
fn marked_walls() -> Vec<(Member, u64, (u64, u64))> {
    let mut walls = Vec::new();
    for place in places() {
        for (strengthened, annex_e) in [(0, 0), (0, 1), (1, 0), (1, 1)] {
            let (m, rotations) = if (strengthened, annex_e) == (1, 0) { place.halved } else { place.table };
            for (factor, rotation) in FACTORS.into_iter().zip(rotations) {
                walls.push((Member { strengthened, annex_e, factor, ..wall(&place) }, place.class, (m, rotation)));
            }
        }
    }
    walls
}

/// What both programs find of a member in each case of a form.
fn found(form: u64, m: &Member) -> Vec<MemberFinding> {
    assert_eq!(same_member(100, form, [false; CASES], m), None);
    judge_member(100, form, [false; CASES], &member_numbers(m).unwrap()).expect("a good member")
}

/// The member of the old form in four cases, each of which holds its one case.
fn in_cases(m: &Member) -> Member {
    Member { cases: [m.cases[0]; CASES], ..*m }
}

#[test]
fn limits_by_class_marks_and_factor() {
    let walls = marked_walls();
    assert_eq!(walls.len(), 11 * 8);
    for (m, class, limits) in walls {
        for (form, m) in [(OLD_FORM, m), (CASE_FORM, in_cases(&m))] {
            for f in found(form, &m) {
                assert_eq!((f.class, (f.m_limit, f.rotation_limit)), (class, limits), "form {form}: {m:?}");
            }
        }
    }
}

/// Over is one past either limit, and not at both.
#[test]
fn over_past_the_limits() {
    for (m, _, (m_limit, rotation_limit)) in marked_walls() {
        for (m_e, rotation, over) in [(m_limit, rotation_limit, false), (m_limit + 1, 0, true), (0, rotation_limit + 1, true)] {
            let loaded = Member { cases: one_case(LoadCase { m_e, rotation, ..m.cases[0] }), ..m };
            assert_eq!(found(OLD_FORM, &loaded)[0].over, over, "{loaded:?}");
            assert!(found(CASE_FORM, &in_cases(&loaded)).iter().all(|f| f.over == over), "{loaded:?}");
        }
    }
}

/// A class B of one case alone is halved there alone.
#[test]
fn halved_in_the_cases_of_class_b() {
    let a = Member { strengthened: 1, ..wall(&places()[0]) };
    for i in 0..CASES {
        let mut m = in_cases(&a);
        // As much shear demand as capacity.
        m.cases[i].v_r = m.cases[i].v_e;
        for (j, f) in found(CASE_FORM, &m).iter().enumerate() {
            let due = if i == j { (WALL_B, 250_000, 10_000) } else { (WALL_A, 700_000, 30_000) };
            assert_eq!((f.class, f.m_limit, f.rotation_limit), due, "case {}, class B in {}", j + 1, i + 1);
        }
    }
}

/// All these walls in one storey of a form.
fn survey(form: u64) -> Survey {
    let members = marked_walls();
    let old = Survey {
        header: Header { knowledge: 100, height: 3_000, storeys: 1, tilt_1: 0, tilt_2: 0, storey_count: 1, form: OLD_FORM },
        storeys: vec![Storey { number: 1, shears: [1_000, 0, 0, 0], count: members.len() as u64 }],
        members: (1..).zip(&members).map(|(number, (m, ..))| Member { number, ..*m }).collect(),
    };
    if form == CASE_FORM { in_four_cases(&old) } else { old }
}

#[test]
fn limits_on_the_sheet() {
    for form in FORMS {
        let survey = survey(form);
        assert_eq!((same_building(&survey), same_report(&survey, sheet_len(&survey))), (None, None));
        let sheet = String::from_utf8(same_determine(&write_survey(&survey), sheet_len(&survey))).expect("text");
        let numbers = |line: &str| line.split_whitespace().map(|field| field.parse().expect("a number")).collect();
        let lines: Vec<Vec<u64>> = sheet.lines().filter_map(|line| line.strip_prefix('M')).map(numbers).collect();
        let walls = marked_walls();
        assert_eq!(lines.len() % walls.len(), 0);
        for (line, (_, class, (m, rotation))) in lines.iter().zip(walls.iter().cycle()) {
            let line = if form == CASE_FORM { &line[1..] } else { &line[..] };
            assert_eq!((line[1], line[3], line[5]), (*class, *m, *rotation), "form {form}: {line:?}");
        }
    }
}

/// The member with its mark of annex E exchanged is found the same, unless it is a strengthened wall, in the cases in which that is of class B: there
/// both limits and what follows from them differ, and nothing else.
#[test]
fn only_a_strengthened_wall_of_class_b_reads_the_mark() {
    let mut rng = Rng::new(SEED);
    let (mut same, mut halved, mut overs) = ([0u32; 6], 0, 0);
    for i in 0..20_000 {
        let (k, form) = (rng.pick(&[90, 100]), FORMS[i % 2]);
        let m = edge_member_for(&mut rng, k, form);
        let met = std::array::from_fn(|_| rng.chance(50));
        let judged = |annex_e| {
            let marked = Member { annex_e, ..m };
            assert_eq!(same_member(k, form, met, &marked), None);
            judge_member(k, form, met, &member_numbers(&marked).unwrap()).expect("a good member")
        };
        for (without, with) in judged(0).into_iter().zip(judged(1)) {
            if !(is_wall(&m) && m.strengthened == 1 && with.class == WALL_B) {
                assert_eq!(without, with, "{m:?}");
                same[with.class as usize] += 1;
                continue;
            }
            assert_eq!(without.m_limit, with.m_limit / 2, "{m:?}");
            assert!([0, 1].contains(&(with.rotation_limit - 2 * without.rotation_limit)), "{m:?}");
            assert!(with.over <= without.over, "{m:?}");
            let unread = |f: MemberFinding| (f.class, f.m, f.rotation, f.nd, f.m_dropped);
            assert_eq!(unread(without), unread(with), "{m:?}");
            halved += 1;
            overs += u32::from(with.over < without.over);
        }
    }
    assert!(same[1..].iter().all(|&n| n > 500), "members that do not read it: {same:?}");
    assert!(halved > 500 && overs > 50, "{halved} halved, {overs} over by it");
}
