//! Demand 3, widened by N11, run through the proved calls, in both forms: surveys that meet all its conditions, and for eight of them a pair that
//! breaks only that one, in the old form and in one of four cases; walls that pass from class A to B, at the bound and past it.
use compare::{judge_building, judge_member, judge_storey, member_numbers, member_rows, plain_column};
use generator::{is_wall, one_case, valid_survey, Rng};
use independent::lines::{cases_of, CASES, CASE_FORM, OLD_FORM};
use independent::{Header, LoadCase, Member, MemberFinding, Storey, Survey};

const SEED: u64 = 20_260_117;
const MOST: u64 = 9_999_999;

/// A storey with its members, and where its partner and theirs stand in the other survey.
#[derive(Clone)]
struct Floor {
    storey: Storey,
    members: Vec<Member>,
}

fn floors(survey: &Survey) -> Vec<Floor> {
    let mut rest = survey.members.iter().copied();
    survey.storeys.iter().map(|&storey| Floor { storey, members: rest.by_ref().take(storey.count as usize).collect() }).collect()
}

fn survey_of(header: Header, floors: &[Floor]) -> Survey {
    Survey {
        header,
        storeys: floors.iter().map(|f| f.storey).collect(),
        members: floors.iter().flat_map(|f| f.members.iter().copied()).collect(),
    }
}

/// The class in each case.
fn classes(k: u64, form: u64, m: &Member) -> Vec<u8> {
    let found = independent::judge_member(k, form, [false; CASES], m).expect("a good member");
    found.iter().map(|f| f.class).collect()
}

fn more(rng: &mut Rng, v: u64, most: u64) -> u64 {
    if rng.chance(50) { v } else { v + rng.below((most - v).min(1_000_000) + 1) }
}

fn less(rng: &mut Rng, v: u64, least: u64) -> u64 {
    if rng.chance(50) { v } else { v - rng.below(v - least + 1) }
}

/// Whether a wall with boundary zone passes from class A to B in a case, with n at most 0.2 in both (N11).
fn passes_to_b(k: u64, form: u64, m: &Member, n: &Member) -> Vec<bool> {
    let found = |m: &Member| independent::judge_member(k, form, [false; CASES], m).expect("a good member");
    let passes = |(a, b): (MemberFinding, MemberFinding)| (a.class, b.class) == (4, 5) && m.boundary_zone == 1 && a.n.max(b.n) <= 20_000;
    found(m).into_iter().zip(found(n)).map(passes).collect()
}

/// A case that is nowhere better.
fn worse_case(rng: &mut Rng, m: &Member, c: &LoadCase) -> LoadCase {
    LoadCase {
        n_k: c.n_k + rng.below((MOST as i64 - c.n_k) as u64 / 8 + 1) as i64,
        m_e: more(rng, c.m_e, MOST),
        m_p: less(rng, c.m_p, 1),
        v_e: more(rng, c.v_e, MOST),
        v_r: less(rng, c.v_r, 1),
        v: if is_wall(m) { c.v } else { more(rng, c.v, MOST) },
        rotation: more(rng, c.rotation, MOST),
        drift: more(rng, c.drift, MOST),
    }
}

/// A partner that is nowhere better.
fn worse(rng: &mut Rng, k: u64, form: u64, m: &Member) -> Member {
    let mut n = *m;
    n.n_d += rng.below((MOST as i64 - m.n_d) as u64 / 8 + 1) as i64;
    n.damage_kind += rng.below(5 - m.damage_kind);
    n.a_sh = less(rng, m.a_sh, 0);
    n.factor = less(rng, m.factor, 0);
    for i in 0..cases_of(form) {
        n.cases[i] = worse_case(rng, m, &m.cases[i]);
    }
    let to_b = passes_to_b(k, form, m, &n);
    let allowed = |(i, (a, b)): (usize, (u8, u8))| !(is_wall(m) && a != b && !to_b[i]) && !(m.strengthened == 1 && b == 3 && a != 3);
    if !classes(k, form, m).into_iter().zip(classes(k, form, &n)).enumerate().all(allowed) {
        n.a_sh = m.a_sh;
        for (n, m) in n.cases.iter_mut().zip(m.cases) {
            (n.v_e, n.v_r) = (m.v_e, m.v_r);
        }
    }
    n
}

/// Whether the member is over, in each case.
fn overs(k: u64, form: u64, met: &[bool], m: &Member) -> Vec<bool> {
    let met = std::array::from_fn(|i| met.get(i) == Some(&true));
    let found = judge_member(k, form, met, &member_numbers(m).unwrap()).expect("a good member");
    found.iter().map(|f| f.over).collect()
}

/// Whether every one that holds before holds after.
fn kept(before: &[bool], after: &[bool]) -> bool {
    before.len() == after.len() && before.iter().zip(after).all(|(before, after)| !before || *after)
}

#[test]
fn a_worse_survey_in_another_order_never_clears() {
    let mut rng = Rng::new(SEED);
    let (mut risky, mut a_to_c, mut to_b, mut tension, mut walls, mut damaged, mut halved) = ([0; 2], 0, 0, 0, 0, 0, 0);
    for _ in 0..1_500 {
        let first = valid_survey(&mut rng);
        let (k, form) = (first.header.knowledge, first.header.form);
        let one = floors(&first);
        let mut header = first.header;
        header.tilt_1 = more(&mut rng, header.tilt_1, MOST);
        header.tilt_2 = more(&mut rng, header.tilt_2, MOST);
        let storey_order = rng.order(one.len());
        let mut two = Vec::new();
        let mut member_orders = Vec::new();
        for &i in &storey_order {
            let order = rng.order(one[i].members.len());
            let mut members = Vec::new();
            for (at, &j) in order.iter().enumerate() {
                let mut n = worse(&mut rng, k, form, &one[i].members[j]);
                n.number = 1 + at as u64;
                members.push(n);
            }
            let storey = Storey { number: 1 + two.len() as u64, ..one[i].storey };
            two.push(Floor { storey, members });
            member_orders.push(order);
        }
        let second = survey_of(header, &two);
        let judged = |s: &Survey| judge_building(&s.header, &s.storeys, &member_rows(&s.members).unwrap()).expect("accepted");
        let (before, after) = (judged(&first), judged(&second));
        assert!(!before.risky || after.risky, "a building was cleared");
        for (at, &i) in storey_order.iter().enumerate() {
            let find = |f: &Floor| judge_storey(k, form, &f.storey, &member_rows(&f.members).unwrap()).expect("accepted");
            let (a, b) = (find(&one[i]), find(&two[at]));
            assert!(!a.risky || b.risky, "a storey was cleared");
            let by_case = |f: &llunareth::StoreyFinding| f.cases.iter().map(|case| (case.risky, case.walls_suffice)).unzip();
            let ((a_risky, a_met), (b_risky, b_met)): ((Vec<bool>, Vec<bool>), (Vec<bool>, Vec<bool>)) = (by_case(&a), by_case(&b));
            assert!(kept(&a_risky, &b_risky), "a storey was cleared in a case");
            assert_eq!(a_met, b_met, "the 0.40 condition");
            risky[form as usize - 1] += u32::from(a.risky);
            for (n_at, &j) in member_orders[at].iter().enumerate() {
                let (m, n) = (&one[i].members[j], &two[at].members[n_at]);
                assert!(kept(&overs(k, form, &a_met, m), &overs(k, form, &b_met, n)), "a member was cleared: {m:?} {n:?}");
                a_to_c += u32::from(classes(k, form, m).into_iter().zip(classes(k, form, n)).any(|pair| pair == (1, 3)));
                to_b += u32::from(passes_to_b(k, form, m, n).contains(&true));
                tension += u32::from(m.cases.iter().any(|c| c.n_k < 0));
                walls += u32::from(is_wall(m));
                damaged += u32::from(m.damage_kind > 0);
                assert_eq!((m.hooks, m.boundary_zone, m.strengthened, m.annex_e), (n.hooks, n.boundary_zone, n.strengthened, n.annex_e), "marks");
                halved += u32::from((m.strengthened, m.annex_e) == (1, 0) && classes(k, form, m).contains(&5));
            }
        }
    }
    assert!(a_to_c > 0, "columns go from A to C");
    let [old, cases] = risky;
    let counts = [old, cases, tension, walls, to_b, damaged, halved];
    assert!(counts.iter().all(|&n| n > 100), "Risky in the old form and in cases, in tension, walls, that pass to B, damaged, halved: {counts:?}");
}

/// A building of the old form, of one storey with one member.
fn single(k: u64, shear: u64, change: impl Fn(&mut Member, &mut LoadCase)) -> Survey {
    let mut m = Member { f_yw: 1_846, ..plain_column() };
    let mut load = LoadCase { v_e: 100, v_r: 60, v: 351, ..m.cases[0] };
    change(&mut m, &mut load);
    m.cases = one_case(load);
    Survey {
        header: Header { knowledge: k, height: 9_000, storeys: 3, tilt_1: 0, tilt_2: 0, storey_count: 1, form: OLD_FORM },
        storeys: vec![Storey { number: 1, shears: [shear, 0, 0, 0], count: 1 }],
        members: vec![m],
    }
}

/// The survey in four cases, with its one case as case `i`, from 0, and nothing demanded in the others.
fn in_case(i: usize, survey: &Survey) -> Survey {
    let mut survey = survey.clone();
    survey.header.form = CASE_FORM;
    let (storey, m) = (&mut survey.storeys[0], &mut survey.members[0]);
    let (mut shears, mut cases) = ([1_000; CASES], [LoadCase { m_p: 1, v_r: 1, ..LoadCase::default() }; CASES]);
    (shears[i], cases[i]) = (storey.shears[0], m.cases[0]);
    (storey.shears, m.cases) = (shears, cases);
    survey
}

fn wall(m: &mut Member, c: &mut LoadCase) {
    (m.long_side, m.short_side, c.v_e, c.v_r) = (1_000, 100, 900, 901);
}

/// The first is Risky, and the second, worse but for the one condition, is not; in one of four cases too.
fn cleared(one: &Survey, other: &Survey) {
    let risky = |s: &Survey| judge_building(&s.header, &s.storeys, &member_rows(&s.members).unwrap()).expect("accepted").risky;
    assert!(risky(one) && !risky(other), "{one:?}\n{other:?}");
    for i in 0..CASES {
        assert!(risky(&in_case(i, one)) && !risky(&in_case(i, other)), "case {}: {one:?}\n{other:?}", i + 1);
    }
}

#[test]
fn eight_conditions_cannot_be_left_out() {
    // equal knowledge level
    cleared(&single(90, 1_000, |_, c| c.m_e = 95), &single(100, 1_000, |_, c| c.m_e = 95));
    // equal storey shears
    cleared(&single(100, 1_000, |_, c| c.m_e = 999), &single(100, 2_000, |_, c| c.m_e = 999));
    // equal concrete strength
    let hooked = |f_cm| single(100, 1_000, move |m, c| (m.hooks, c.m_e, c.v_r, m.f_cm) = (1, 500, 1_000, f_cm));
    cleared(&hooked(100), &hooked(99));
    // no strengthened column C unless its partner is
    let cut = |v_r| single(100, 1_000, move |m, c| (m.strengthened, c.n_k, c.m_e, c.v_r) = (1, 70_000, 80, v_r));
    cleared(&cut(100), &cut(90));
    // no rotation lower
    cleared(&single(100, 1_000, |_, c| c.rotation = 99_999), &single(100, 1_000, |_, c| c.rotation = 0));
    // every wall its partner's class
    let classed = |v_r| {
        single(100, 1_000, move |m, c| {
            wall(m, c);
            (c.n_k, c.m_e, c.v, c.drift, c.v_r) = (10_000, 470, 1_000, 7_500, v_r);
        })
    };
    cleared(&classed(901), &classed(900));
    // equal wall shears
    let carrying = |v| {
        single(100, 1_000, move |m, c| {
            wall(m, c);
            (c.m_e, c.v) = (999, v);
        })
    };
    cleared(&carrying(399), &carrying(400));
    // equal marks of annex E: the limit of m is 250,000 with 0 and 500,000 with 1
    let marked = |annex_e| {
        single(100, 1_000, move |m, c| {
            wall(m, c);
            (m.strengthened, m.annex_e) = (1, annex_e);
            (c.m_e, c.v, c.v_r, c.drift) = (300, 1_000, 900, 7_500);
        })
    };
    cleared(&marked(0), &marked(1));
}

/// A wall with boundary zone at v 90,000; n is 2 x 10^9 / A_c and m 10 x M_e. Of class A with V_r 901, of class B with 900.
fn zone_wall(v_r: u64, change: impl Fn(&mut Member, &mut LoadCase)) -> Survey {
    single(100, 1_000, move |m, c| {
        wall(m, c);
        (m.boundary_zone, c.n_k, c.m_p, c.v, c.v_r, c.drift) = (1, 2_000, 10_000, 1_000, v_r, 7_500);
        change(m, c);
    })
}

/// At 0.2 the limits of m are the same; one step above, that of class A is 499,980 and that of class B 500,000.
#[test]
fn a_wall_that_passes_to_b_above_the_bound() {
    let above = |v_r| zone_wall(v_r, |m, c| (m.a_c, c.m_e) = (99_996, 49_999));
    cleared(&above(901), &above(900));
    let plain = |v_r| zone_wall(v_r, |m, c| (m.boundary_zone, m.a_c, c.m_e) = (0, 200_000, 49_000));
    cleared(&plain(901), &plain(900));
    let within = |v_r| zone_wall(v_r, |m, c| (m.a_c, c.m_e) = (100_000, 50_001));
    let [a, b] = [within(901), within(900)].map(|s| found(&s.members[0]));
    assert_eq!([(a.class, a.m_limit, a.over), (b.class, b.m_limit, b.over)], [(4, 500_000, true), (5, 500_000, true)]);
}

/// What is found of a member of the old form with k 100.
fn found(m: &Member) -> llunareth::MemberFinding {
    judge_member(100, OLD_FORM, [false; CASES], &member_numbers(m).unwrap()).expect("a good member")[0]
}

/// A wall of class A with boundary zone and n at most 0.2, at rows of stress and between them, with any marks and factor; m and rotation about its limits.
fn passing_wall(rng: &mut Rng) -> Member {
    let n_k = rng.pick(&[-1_000, 0, 10_000, 15_000, 19_999, 20_000]);
    let v_e = rng.pick(&[60_000, 89_999, 90_000, 90_001, 110_000, 129_999, 130_000, 150_000]);
    let load = LoadCase { n_k, m_p: 100_000, v_e, v_r: 200_000, v: 1, drift: 7_500, ..LoadCase::default() };
    let (strengthened, annex_e, factor) = (rng.below(2), rng.below(2), rng.pick(&[100, 75, 33, 0]));
    let sides = Member { long_side: 500, short_side: 100, f_ctm: 1_000, d: 10_000, h_w: 1_000, boundary_zone: 1, ..plain_column() };
    let mut wall = Member { strengthened, annex_e, factor, cases: one_case(load), ..sides };
    let limits = found(&wall);
    wall.cases[0].m_e = (limits.m_limit + rng.pick(&[0, 1, 2, 50_000])).saturating_sub(1);
    wall.cases[0].rotation = (limits.rotation_limit + rng.pick(&[0, 1, 2, 5_000])).saturating_sub(1);
    wall
}

/// What is over in class A is so in class B, by more V_e or less V_r.
#[test]
fn a_wall_that_passes_to_b_within_the_bound_stays_over() {
    let mut rng = Rng::new(SEED);
    let (mut by_m, mut by_rotation) = (0, 0);
    for _ in 0..20_000 {
        let wall = passing_wall(&mut rng);
        let (mut other, case) = (wall, wall.cases[0]);
        (other.cases[0].v_e, other.cases[0].v_r) = rng.pick(&[(case.v_r, case.v_r), (case.v_e, case.v_e), (case.v_r + 1, case.v_e)]);
        let (a, b) = (found(&wall), found(&other));
        assert_eq!((a.class, b.class), (4, 5), "{wall:?}");
        assert!(b.m_limit <= a.m_limit && b.rotation_limit <= a.rotation_limit && (!a.over || b.over), "{wall:?} {other:?}");
        by_m += u32::from(a.over_m);
        by_rotation += u32::from(a.over_rotation);
    }
    assert!(by_m > 1_000 && by_rotation > 1_000, "over by m {by_m}, by the rotation {by_rotation}");
}
