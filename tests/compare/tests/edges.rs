//! Edges (a) to (j) of document 01, with ratios in hundred-thousandths, run through the proved calls, in the old form and in each of four cases.
use compare::{judge_building, judge_member, judge_storey, member_numbers, member_rows, plain_column};
use independent::lines::{CASES, CASE_FORM, OLD_FORM};
use independent::{Header, LoadCase, Member, Storey};

/// A column of the old form whose n is N_K and n_D is N_D, rho 3,250, with neither hooks nor demand; `change` makes the case.
fn member(change: impl Fn(&mut Member, &mut LoadCase)) -> Member {
    let mut m = Member { boundary_zone: 1, ..plain_column() };
    let mut load = LoadCase { v_r: 100, ..m.cases[0] };
    change(&mut m, &mut load);
    m.cases[0] = load;
    m
}

/// The member in four cases, with its one case as case `i`, from 0, and nothing demanded in the others.
fn in_case(i: usize, m: &Member) -> Member {
    let mut cases = [LoadCase { v_r: 100, ..plain_column().cases[0] }; CASES];
    cases[i] = m.cases[0];
    Member { cases, ..*m }
}

/// Class, m limit and rotation limit.
fn limits(k: u64, m: &Member) -> (u64, u64, u64) {
    let judged = |form, m: &Member| judge_member(k, form, [false; CASES], &member_numbers(m).unwrap()).expect("a good member");
    let found = judged(OLD_FORM, m)[0];
    for i in 0..CASES {
        assert_eq!(judged(CASE_FORM, &in_case(i, m))[i], found, "in case {}", i + 1);
    }
    (found.class, found.m_limit, found.rotation_limit)
}

#[test]
fn a_column_a() {
    let m = member(|m, c| (m.hooks, c.n_k, c.v_e) = (1, 35_000, 60));
    assert_eq!(limits(100, &m), (1, 450_000, 27_500));
}

#[test]
fn b_column_b() {
    let m = member(|_, c| (c.n_k, c.v_e) = (35_000, 60));
    assert_eq!(limits(100, &m), (2, 318_750, 15_625));
}

#[test]
fn c_column_b_strengthened() {
    let m = member(|m, c| (c.n_k, c.v_e, m.strengthened) = (35_000, 60, 1));
    assert_eq!(limits(100, &m), (2, 239_062, 11_718));
}

#[test]
fn d_column_c() {
    let m = member(|_, c| (c.n_k, c.v_e) = (85_000, 200));
    assert_eq!(limits(100, &m), (3, 100_000, 2_500));
}

#[test]
fn e_wall_a_with_zone() {
    let m = member(|m, c| (m.long_side, m.short_side, c.n_k, c.v_e, c.v_r) = (1_000, 100, 17_500, 1_100, 9_999));
    assert_eq!(limits(100, &m), (4, 437_500, 18_750));
}

#[test]
fn f_seven_tenths_of_the_capacity() {
    let class = |v_e| limits(90, &member(|m, c| (m.hooks, c.v_e) = (1, v_e))).0;
    assert_eq!((class(63), class(64)), (1, 2));
}

/// Σ, c, P and whether a storey with the shear 1,000 is Risky: in the old form, and in each of four cases where the others demand nothing and have
/// the largest storey shear.
fn storey(members: &[Member]) -> (u64, u64, u64, bool) {
    let judged = |form, shears, members: &[Member]| {
        let s = Storey { number: 1, shears, count: members.len() as u64 };
        judge_storey(100, form, &s, &member_rows(members).unwrap()).expect("a good storey")
    };
    let found = judged(OLD_FORM, [1_000, 0, 0, 0], members);
    for i in 0..CASES {
        let mut shears = [9_999_999; CASES];
        shears[i] = 1_000;
        let cases: Vec<Member> = members.iter().map(|m| in_case(i, m)).collect();
        let in_cases = judged(CASE_FORM, shears, &cases);
        assert_eq!((in_cases.risky, in_cases.cases[i]), (found.risky, found.cases[0]), "in case {}", i + 1);
        assert!(in_cases.cases.iter().enumerate().all(|(j, f)| j == i || f.risky == f.by_damage), "Risky elsewhere by damage alone");
    }
    let f = found.cases[0];
    assert_eq!(f.risky, found.risky);
    (f.axial_total, f.members, f.over_shear, f.risky)
}

/// Column `number`, over where `m_e` is 1,000.
fn loaded(number: u64, n_d: i64, m_e: u64, v: u64, damage_kind: u64) -> Member {
    member(|m, c| (m.number, m.n_d, c.m_e, c.v, m.damage_kind) = (number, n_d, m_e, v, damage_kind))
}

#[test]
fn g_the_share_between_its_ends() {
    let pair = |v| storey(&[loaded(1, 35_000, 1_000, v, 0), loaded(2, 40_000, 0, 500, 0)]);
    assert_eq!(pair(175), (75_000, 2, 175, false));
    assert_eq!(pair(176), (75_000, 2, 176, true));
}

#[test]
fn h_the_axial_bound() {
    let pair = |n_d| storey(&[loaded(1, n_d, 1_000, 0, 0), loaded(2, 65_000, 0, 500, 0)]);
    assert_eq!(pair(65_000), (130_000, 2, 0, false));
    assert_eq!(pair(65_001), (130_001, 2, 0, true));
}

#[test]
fn i_one_member_of_damage_kind_four() {
    let among = |n| {
        let members: Vec<Member> = (1..=n).map(|i| loaded(i, 0, 0, 0, if i == 1 { 4 } else { 0 })).collect();
        storey(&members).3
    };
    assert_eq!((among(20), among(21)), (true, false));
}

#[test]
fn j_the_larger_tilt() {
    let tilted = |form, m: Member, shears, tilt_1, tilt_2| {
        let h = Header { knowledge: 100, height: 9_000, storeys: 3, tilt_1, tilt_2, storey_count: 1, form };
        let s = Storey { number: 1, shears, count: 1 };
        let b = judge_building(&h, &[s], &member_rows(&[m]).unwrap()).expect("a good building");
        assert_eq!((b.place, b.case), (0, 0));
        (b.tilted, b.risky)
    };
    let m = loaded(1, 0, 0, 0, 0);
    for (form, m, shears) in [(OLD_FORM, m, [1_000, 0, 0, 0]), (CASE_FORM, in_case(0, &m), [1_000; CASES])] {
        assert_eq!(tilted(form, m, shears, 25_000, 25_000), (false, false));
        assert_eq!(tilted(form, m, shears, 25_001, 0), (true, true));
        assert_eq!(tilted(form, m, shears, 0, 25_001), (true, true));
    }
}
