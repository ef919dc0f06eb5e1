//! Walls with boundary zone that pass from A to B, at most 0.2 by n in both
//! surveys: request N11.

mod common;

use common::draw::Draw;
use common::old::{self, Member as Flat};
use common::pairs::{
    alone, compare, in_case, passes, Compared, ComparedMember, ComparedStorey, Tried,
};
use common::wall;
use independent::lines::{cases_of, CASE_FORM, OLD_FORM};
use independent::members::{WALL_A, WALL_B};
use independent::{judge_member, LoadCase, Member, MemberFinding};

/// v of a wall in a case, hundred-thousandths, rounded up.
fn stress(m: &Member, load: &LoadCase) -> u64 {
    let section = m.short_side * m.d * m.f_ctm;
    (1_000_000_000 * load.v_e).div_ceil(section)
}

// ---- drawn pairs at the edges ----

const N_EDGES: [u64; 10] = [
    0, 9_999, 10_000, 10_001, 19_999, 20_000, 20_000, 20_000, 20_001, 25_000,
];

const V_EDGES: [u64; 10] = [
    1_000, 89_999, 90_000, 90_001, 90_016, 110_000, 129_999, 130_000, 130_001, 200_000,
];

impl Draw {
    fn one_of(&mut self, of: &[u64]) -> u64 {
        of[self.below(of.len() as u64) as usize]
    }

    /// A wall without its cases. In half of them n is N_K and v is V_e.
    fn edge_section(&mut self, number: u64) -> Member {
        let mut m = Member {
            number,
            h_w: 2_000 - self.yes(20),
            boundary_zone: 1 - self.yes(10),
            strengthened: self.yes(2),
            annex_e: self.yes(2),
            factor: 100 - self.step(99),
            damage_kind: self.yes(30) * self.within(1, 4),
            cases: [LoadCase::default(); 4],
            ..wall().record()
        };
        if self.yes(2) == 1 {
            m.a_c = self.within(1_000_000, 9_999_999);
            m.f_cm = self.within(50, 300);
            m.f_ctm = self.within(50, 300);
            m.short_side = self.within(150, 200);
            m.d = self.within(1_000, 6_000);
        }
        m.n_d = (self.within(0, 40_000) * m.f_cm * m.a_c / 100_000_000) as i64;
        m
    }

    fn edge_or_between(&mut self, edges: &[u64], most: u64) -> u64 {
        if self.yes(4) == 1 {
            self.within(0, most)
        } else {
            self.one_of(edges)
        }
    }

    /// n and v at the edges; V_r mostly the least of class A.
    fn edge_load(&mut self, k: u64, m: &Member) -> LoadCase {
        let n = self.edge_or_between(&N_EDGES, 20_000);
        let v = self.edge_or_between(&V_EDGES, 140_000);
        let v_e = v * (m.short_side * m.d * m.f_ctm) / 1_000_000_000;
        let n_k = n * (m.f_cm * m.a_c) / 100_000_000;
        LoadCase {
            n_k: n_k as i64 - (self.yes(20) * 30_000) as i64,
            m_p: self.one_of(&[1, 999, 100_000, 123_457]),
            v_e,
            v_r: (100 * v_e / k + self.one_of(&[1, 1, 1, 1, 2, 300, 0])).max(1),
            v: self.within(0, 300),
            drift: self.one_of(&[7_499, 7_500, 7_500, 9_000]),
            ..LoadCase::default()
        }
    }

    /// m and rotation at their limits, one or two steps above, or far below: then
    /// the other alone is over.
    fn at_its_limits(&mut self, k: u64, form: u64, m: &mut Member) {
        let found = judge_member(k, form, [false; 4], m).unwrap();
        for (load, f) in m.cases.iter_mut().zip(&found) {
            load.m_e = f.m_limit * k * load.m_p / 10_000_000 + self.one_of(&[0, 1, 1, 2]);
            load.rotation = f.rotation_limit + self.one_of(&[0, 1, 1, 2]);
            match self.below(4) {
                0 => load.m_e = 0,
                1 | 2 => load.rotation = 0,
                _ => {}
            }
        }
    }

    fn edge_wall(&mut self, k: u64, form: u64, number: u64) -> Member {
        let mut m = self.edge_section(number);
        for i in 0..cases_of(form) {
            m.cases[i] = self.edge_load(k, &m);
        }
        self.at_its_limits(k, form, &mut m);
        m
    }

    /// Makes the partner's wall class B in a case, by no more shear than needed,
    /// where N11 allows it.
    fn let_pass(&mut self, k: u64, m: &Member, former: &LoadCase, load: &mut LoadCase) {
        let most_n_k = (m.f_cm * m.a_c / 5_000) as i64;
        if m.boundary_zone == 0 || former.n_k > most_n_k {
            return;
        }
        load.n_k = load.n_k.min(most_n_k);
        if self.yes(2) == 1 {
            load.v_r = load.v_r.min(100 * load.v_e / k).max(1);
        } else {
            load.v_e = load.v_e.max((k * load.v_r).div_ceil(100));
        }
    }
}

fn edge_wall_and_worse(draw: &mut Draw, k: u64, form: u64, number: u64) -> [Member; 2] {
    let m = draw.edge_wall(k, form, number);
    let mut worse = if draw.yes(2) == 1 {
        m
    } else {
        draw.worse(k, form, &m)
    };
    for i in 0..cases_of(form) {
        if draw.yes(4) == 0 {
            draw.let_pass(k, &m, &m.cases[i], &mut worse.cases[i]);
        }
    }
    [m, worse]
}

/// Mostly walls at the edges, beside members of any sort.
fn edge_member_and_worse(draw: &mut Draw, k: u64, form: u64, number: u64) -> [Member; 2] {
    if draw.yes(3) == 0 {
        return edge_wall_and_worse(draw, k, form, number);
    }
    let m = draw.member(form, number);
    [m, draw.worse(k, form, &m)]
}

/// Walls that passed from A to B and were over before, by case.
#[derive(Debug, Default)]
struct Carried {
    all: u64,
    /// In the second, so in both.
    by_m_alone: u64,
    by_rotation_alone: u64,
    /// n 20,000 in both.
    at_0_2: u64,
    /// And m one step above both limits, which are equal, and no rotation above.
    no_room: u64,
    /// v before: below the first row, at it, between, at the last, above it.
    by_v: [u64; 5],
    /// Not strengthened; strengthened; strengthened and detailed.
    by_marks: [u64; 3],
    /// A factor below 100 in the first.
    reduced: u64,
    /// V_e greater; V_r lower.
    by_shear: [u64; 2],
    /// Storeys Risky in a case by such walls alone, and buildings.
    storeys: u64,
    buildings: u64,
}

fn place_of(v: u64) -> usize {
    match v {
        0..=89_999 => 0,
        90_000 => 1,
        90_001..=129_999 => 2,
        130_000 => 3,
        _ => 4,
    }
}

fn no_room(before: &MemberFinding, after: &MemberFinding) -> bool {
    let equal = before.m_limit == after.m_limit && before.m == after.m;
    equal && after.m == after.m_limit + 1 && !after.rotation_above
}

fn to_carry(c: &ComparedMember) -> bool {
    c.before.over && passes(&c.member, &c.before, &c.after)
}

/// Risky in the case, and every member over there is such a wall.
fn rests_on_walls(s: &ComparedStorey, case: usize) -> bool {
    let f = &s.before.cases[case];
    let mut over = s.members.iter().filter(|c| c.case == case && c.before.over);
    f.risky && !f.by_damage && over.all(to_carry)
}

impl Carried {
    fn add_wall(&mut self, c: &ComparedMember, partner: &Member) {
        let (m, before, after) = (&c.member, &c.before, &c.after);
        let (load, worse) = (&m.cases[c.case], &partner.cases[c.case]);
        let v = stress(m, load);
        let at_0_2 = (before.n, after.n) == (20_000, 20_000);
        self.all += 1;
        self.by_m_alone += !after.rotation_above as u64;
        self.by_rotation_alone += !after.m_above as u64;
        self.at_0_2 += at_0_2 as u64;
        self.no_room += (at_0_2 && no_room(before, after)) as u64;
        self.by_v[place_of(v)] += 1;
        self.by_marks[(m.strengthened * (1 + m.annex_e)) as usize] += 1;
        self.reduced += (m.factor < 100) as u64;
        self.by_shear[0] += (worse.v_e > load.v_e) as u64;
        self.by_shear[1] += (worse.v_r < load.v_r) as u64;
    }

    fn add_storey(&mut self, s: &ComparedStorey, partners: &[Member]) {
        for c in s.members.iter().filter(|c| to_carry(c)) {
            let partner = partners.iter().find(|p| p.number == c.member.number);
            self.add_wall(c, partner.unwrap());
        }
        let cases = 0..s.before.cases.len();
        self.storeys += cases.filter(|&i| rests_on_walls(s, i)).count() as u64;
    }

    fn add_building(&mut self, b: &Compared) {
        let rests = |s: &ComparedStorey| {
            let mut cases = (0..s.before.cases.len()).filter(|&i| s.before.cases[i].risky);
            cases.all(|i| rests_on_walls(s, i))
        };
        let by_storeys = b.before.risky && !b.before.tilt_above;
        self.buildings += (by_storeys && b.storeys.iter().all(rests)) as u64;
    }

    fn least(&self) -> u64 {
        let counts = [
            self.by_m_alone,
            self.by_rotation_alone,
            self.at_0_2,
            self.no_room,
            self.reduced,
            self.storeys,
            self.buildings,
        ];
        let counts = [&counts[..], &self.by_v, &self.by_marks, &self.by_shear].concat();
        *counts.iter().min().unwrap()
    }
}

fn edge_surveys(form: u64, pairs: u64) {
    let mut draw = Draw(20_210_011 + form);
    let (mut tried, mut carried) = (Tried::default(), Carried::default());
    for _ in 0..pairs {
        let pair = draw.pair(form, edge_member_and_worse);
        let compared = compare(&pair);
        tried.add(&compared);
        for (s, rows) in compared.storeys.iter().zip(&pair.storeys) {
            carried.add_storey(s, &rows[1].members);
        }
        carried.add_building(&compared);
    }
    println!("form {form}: {tried:?} {carried:?}");
    assert!(tried.least() > 20, "{tried:?}");
    assert!(carried.all > 1_000 && carried.least() > 20, "{carried:?}");
}

#[test]
fn walls_at_the_edges() {
    edge_surveys(OLD_FORM, 5_000);
}

#[test]
fn walls_at_the_edges_in_four_cases() {
    edge_surveys(CASE_FORM, 2_000);
}

// ---- the limits of both classes ----

fn limits(m: &Flat) -> (u8, u64, u64) {
    let f = old::judge_member(100, false, m).unwrap();
    (f.class, f.m_limit, f.rotation_limit)
}

/// A wall of class A, and the same with V_r lowered to class B: n is N_K, v is
/// V_e.
fn both_classes(n: i64, v: u64, [strengthened, annex_e]: [u64; 2], factor: u64) -> [Flat; 2] {
    let a = Flat {
        n_k: n,
        v_e: v,
        v_r: v + 1,
        strengthened,
        annex_e,
        factor,
        ..wall()
    };
    [a, Flat { v_r: v, ..a }]
}

/// To 0.2 neither limit of class A is below that of class B.
#[test]
fn to_0_2_the_limits_of_a_are_not_below() {
    let mut equal = 0;
    for n in (0..=20_000)
        .step_by(125)
        .chain([9_999, 10_001, 19_998, 19_999])
    {
        for v in V_EDGES {
            for factor in [0, 1, 33, 99, 100] {
                for marks in [[0, 0], [0, 1], [1, 0], [1, 1]] {
                    let [a, b] = both_classes(n, v, marks, factor).map(|m| limits(&m));
                    assert_eq!((a.0, b.0), (WALL_A, WALL_B));
                    assert!(a.1 >= b.1 && a.2 >= b.2, "n {n}, v {v}: {a:?} {b:?}");
                    equal += (a.1 == b.1) as u64;
                }
            }
        }
    }
    // Only n 20,000, v 1,000 to 90,000, not halved.
    assert_eq!(equal, 3 * 5 * 3);
}

// ---- one step above 0.2, and what N11 leaves out ----

/// Class, over, storey Risky, building Risky.
type Verdict = (u8, bool, bool, bool);

const RISKY_A: Verdict = (WALL_A, true, true, true);
const RISKY_B: Verdict = (WALL_B, true, true, true);
const SOUND_A: Verdict = (WALL_A, false, false, false);
const SOUND_B: Verdict = (WALL_B, false, false, false);

fn verdict(m: &Flat) -> Verdict {
    verdict_in(100, OLD_FORM, 0, m)
}

fn verdict_in(k: u64, form: u64, case: usize, m: &Flat) -> Verdict {
    let (found, storey, building) = alone(k, form, case, &in_case(form, case, m));
    (found.class, found.over, storey, building)
}

/// A wall of class A that carries the whole storey shear: n is N_K, v is V_e,
/// m is M_e.
fn stiff_core() -> Flat {
    Flat {
        n_k: 20_001,
        m_e: 500_000,
        m_p: 100_000,
        v: 1_000,
        drift: 7_500,
        ..wall()
    }
}

/// At n 20,001 and v 90,000 class A has 700,000 − 300,000 × 10,001 / 15,000 =
/// 499,980 and 30,000 − 10,000 × 10,001 / 15,000 = 23,332.7; class B has 500,000
/// and 20,000.
#[test]
fn one_step_above_a_verdict_improves() {
    let first = stiff_core();
    let second = Flat {
        v_r: 90_000,
        ..first
    };
    assert_eq!(limits(&first), (WALL_A, 499_980, 23_332));
    assert_eq!(limits(&second), (WALL_B, 500_000, 20_000));
    for m_e in [499_981, 500_000] {
        assert_eq!(verdict(&Flat { m_e, ..first }), RISKY_A);
        assert_eq!(verdict(&Flat { m_e, ..second }), SOUND_B);
    }
    // No such m one step lower or higher.
    assert_eq!(
        verdict(&Flat {
            m_e: 499_980,
            ..first
        }),
        SOUND_A
    );
    assert_eq!(
        verdict(&Flat {
            m_e: 500_001,
            ..second
        }),
        RISKY_B
    );
    // By more shear: v 50,000 and 50,001, the same limits.
    let first = Flat {
        v_e: 50_000,
        v_r: 50_001,
        ..first
    };
    let second = Flat {
        v_e: 50_001,
        ..first
    };
    assert_eq!(limits(&first), (WALL_A, 499_980, 23_332));
    assert_eq!(limits(&second), (WALL_B, 500_000, 20_000));
    assert_eq!((verdict(&first), verdict(&second)), (RISKY_A, SOUND_B));
}

/// At n 20,000 class A has 500,000 and 23,333.3.
#[test]
fn at_0_2_it_does_not() {
    let first = Flat {
        n_k: 20_000,
        ..stiff_core()
    };
    let second = Flat {
        v_r: 90_000,
        ..first
    };
    assert_eq!(limits(&first), (WALL_A, 500_000, 23_333));
    assert_eq!(limits(&second), (WALL_B, 500_000, 20_000));
    assert_eq!((verdict(&first), verdict(&second)), (SOUND_A, SOUND_B));
    let over = |m| Flat { m_e: 500_001, ..m };
    assert_eq!(verdict(&over(first)), RISKY_A);
    assert_eq!(verdict(&over(second)), RISKY_B);
}

/// The same in any of four cases, and with k 90: m is 450,000 / (0.9 × 100,000),
/// and 0.9 × 100,001 is just above V_e.
#[test]
fn one_step_above_in_a_case_and_with_k_90() {
    for (k, m_e, v_r) in [(100, 500_000, 90_001), (90, 450_000, 100_001)] {
        for (n_k, before) in [(20_001, RISKY_A), (20_000, SOUND_A)] {
            let first = Flat {
                n_k,
                m_e,
                v_r,
                ..stiff_core()
            };
            let second = Flat {
                v_r: v_r - 1,
                ..first
            };
            for case in 0..4 {
                assert_eq!(verdict_in(k, CASE_FORM, case, &first), before);
                assert_eq!(verdict_in(k, CASE_FORM, case, &second), SOUND_B);
            }
        }
    }
}

/// Strengthened: detailed to annex E as before, otherwise class B is halved to
/// 250,000 and 10,000 and the finding is carried.
#[test]
fn one_step_above_strengthened() {
    for (annex_e, after) in [(1, SOUND_B), (0, RISKY_B)] {
        let first = Flat {
            strengthened: 1,
            annex_e,
            ..stiff_core()
        };
        let second = Flat {
            v_r: 90_000,
            ..first
        };
        assert_eq!(limits(&first), (WALL_A, 499_980, 23_332));
        assert_eq!((verdict(&first), verdict(&second)), (RISKY_A, after));
    }
}

/// Without boundary zone class A has 450,000 and 15,000 to n 10,000, and at n
/// 20,000 450,000 − 200,000 × 2 / 3 = 316,666.7 and 15,000 − 5,000 × 2 / 3 =
/// 11,666.7, both at v 90,000; class B has 500,000 and 20,000.
#[test]
fn without_boundary_zone_a_verdict_improves() {
    for (n_k, m_limit, rotation_limit) in [
        (-1, 450_000, 15_000),
        (10_000, 450_000, 15_000),
        (20_000, 316_666, 11_666),
    ] {
        let limit = Flat {
            boundary_zone: 0,
            n_k,
            m_e: m_limit,
            rotation: rotation_limit,
            ..stiff_core()
        };
        assert_eq!(limits(&limit), (WALL_A, m_limit, rotation_limit));
        assert_eq!(verdict(&limit), SOUND_A);
        for (m_e, rotation) in [
            (m_limit + 1, 0),
            (500_000, 0),
            (0, rotation_limit + 1),
            (0, 20_000),
        ] {
            let first = Flat {
                m_e,
                rotation,
                ..limit
            };
            let second = Flat {
                v_r: 90_000,
                ..first
            };
            assert_eq!(limits(&second), (WALL_B, 500_000, 20_000));
            assert_eq!((verdict(&first), verdict(&second)), (RISKY_A, SOUND_B));
        }
    }
}

/// Class B before, by its height or by its shear: class B after, so nothing is
/// widened, and n and boundary zone have no part in its limits.
#[test]
fn not_in_class_a_before() {
    let by_height = Flat {
        h_w: 1_999,
        ..stiff_core()
    };
    let by_shear = Flat {
        v_r: 90_000,
        ..stiff_core()
    };
    for b in [by_height, by_shear] {
        for (n_k, boundary_zone) in [(20_000, 1), (20_001, 1), (9_999_999, 1), (0, 0)] {
            for (m_e, expected) in [(500_000, SOUND_B), (500_001, RISKY_B)] {
                let first = Flat {
                    n_k,
                    boundary_zone,
                    m_e,
                    ..b
                };
                let second = Flat {
                    v_r: b.v_r - 1,
                    ..first
                };
                assert_eq!(limits(&first), (WALL_B, 500_000, 20_000));
                assert_eq!(limits(&second), (WALL_B, 500_000, 20_000));
                assert_eq!((verdict(&first), verdict(&second)), (expected, expected));
            }
        }
    }
}

/// The m test dropped in class A is no longer so in class B: the finding may
/// come, not go.
#[test]
fn the_m_test_comes_back() {
    let first = Flat {
        n_k: 20_000,
        m_e: 500_001,
        drift: 7_499,
        ..stiff_core()
    };
    let second = Flat {
        v_r: 90_000,
        ..first
    };
    assert_eq!((verdict(&first), verdict(&second)), (SOUND_A, RISKY_B));
}
