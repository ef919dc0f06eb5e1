//! Pairs of surveys of one form under the conditions of demand 3, case by case,
//! with walls that pass from A to B after N11.

use super::draw::Draw;
use independent::lines::{cases_of, OLD_FORM};
use independent::members::{COLUMN_C, WALL_A, WALL_B};
use independent::{judge_building, judge_member, judge_storey};
use independent::{
    BuildingFinding, Header, LoadCase, Member, MemberFinding, Storey, StoreyFinding,
};

/// The most n of a wall that passes from A to B: 0.2.
pub const MOST_N: u64 = 20_000;

/// A storey with its members.
#[derive(Clone, Debug)]
pub struct Rows {
    pub storey: Storey,
    pub members: Vec<Member>,
}

/// Two surveys: partners stand at the same places.
#[derive(Debug)]
pub struct Pair {
    pub headers: [Header; 2],
    pub storeys: Vec<[Rows; 2]>,
}

/// A member in a case with its partner's finding.
pub struct ComparedMember {
    pub member: Member,
    /// From 0.
    pub case: usize,
    pub before: MemberFinding,
    pub after: MemberFinding,
}

pub struct ComparedStorey {
    pub before: StoreyFinding,
    pub after: StoreyFinding,
    pub members: Vec<ComparedMember>,
}

pub struct Compared {
    pub before: BuildingFinding,
    pub after: BuildingFinding,
    pub storeys: Vec<ComparedStorey>,
}

pub fn is_wall(m: &Member) -> bool {
    m.long_side >= 5 * m.short_side
}

/// Exact: N_K / (f_cm x A_c) is at most 0.2.
fn at_most_a_fifth(m: &Member, load: &LoadCase) -> bool {
    5_000 * load.n_k as i128 <= m.f_cm as i128 * m.a_c as i128
}

// ---- the conditions ----

/// N11 lets this wall pass from A to B.
pub fn passes(m: &Member, before: &MemberFinding, after: &MemberFinding) -> bool {
    m.boundary_zone == 1
        && (before.class, after.class) == (WALL_A, WALL_B)
        && before.n <= MOST_N
        && after.n <= MOST_N
}

/// The condition on class in one case.
fn class_allowed(m: &Member, before: &MemberFinding, after: &MemberFinding) -> bool {
    if is_wall(m) {
        before.class == after.class || passes(m, before, after)
    } else {
        m.strengthened == 0 || after.class != COLUMN_C || before.class == COLUMN_C
    }
}

fn hold_headers(h: &Header, worse: &Header) {
    assert_eq!((h.knowledge, h.form), (worse.knowledge, worse.form));
    assert!(h.tilt_1 <= worse.tilt_1 && h.tilt_2 <= worse.tilt_2);
}

/// All but the class.
fn hold_members(m: &Member, worse: &Member) {
    let others_equal = Member {
        number: worse.number,
        a_sh: worse.a_sh,
        factor: worse.factor,
        damage_kind: worse.damage_kind,
        n_d: worse.n_d,
        cases: worse.cases,
        ..*m
    };
    assert_eq!(others_equal, *worse);
    assert!(worse.a_sh <= m.a_sh && worse.factor <= m.factor);
    assert!(worse.damage_kind >= m.damage_kind && worse.n_d >= m.n_d);
    for (load, worse_load) in m.cases.iter().zip(&worse.cases) {
        hold_loads(is_wall(m), load, worse_load);
    }
}

fn hold_loads(wall: bool, load: &LoadCase, worse: &LoadCase) {
    assert!(worse.n_k >= load.n_k && worse.m_e >= load.m_e && worse.v_e >= load.v_e);
    assert!(worse.m_p <= load.m_p && worse.v_r <= load.v_r);
    assert!(worse.rotation >= load.rotation && worse.drift >= load.drift);
    assert!(worse.v == load.v || (!wall && worse.v > load.v));
}

// ---- what is held ----

/// The 0.40 condition of a storey by case.
fn met(f: &StoreyFinding) -> [bool; 4] {
    let mut met = [false; 4];
    for (place, case) in met.iter_mut().zip(&f.cases) {
        *place = case.meets_wall_share;
    }
    met
}

/// The rows with the members the other way round.
fn turned(rows: &Rows) -> Rows {
    let mut turned = rows.clone();
    turned.members.reverse();
    turned
}

fn storey_finding(h: &Header, rows: &Rows) -> StoreyFinding {
    judge_storey(h.knowledge, h.form, &rows.storey, &rows.members).unwrap()
}

fn building_finding(h: &Header, storeys: &[Rows]) -> BuildingFinding {
    let members: Vec<Member> = storeys.iter().flat_map(|s| s.members.clone()).collect();
    let storeys: Vec<Storey> = storeys.iter().map(|s| s.storey).collect();
    judge_building(h, &storeys, &members).unwrap()
}

/// Over in the first is over in the second, case by case.
fn compare_members(
    h: &Header,
    met: [[bool; 4]; 2],
    m: &Member,
    partner: &Member,
) -> Vec<ComparedMember> {
    hold_members(m, partner);
    let before = judge_member(h.knowledge, h.form, met[0], m).unwrap();
    let after = judge_member(h.knowledge, h.form, met[1], partner).unwrap();
    let mut compared = Vec::new();
    for (case, (before, after)) in before.into_iter().zip(after).enumerate() {
        assert!(class_allowed(m, &before, &after), "{m:?} {partner:?}");
        assert_eq!(before.n <= MOST_N, at_most_a_fifth(m, &m.cases[case]));
        assert!(!before.over || after.over, "case {case}: {m:?} {partner:?}");
        compared.push(ComparedMember {
            member: *m,
            case,
            before,
            after,
        });
    }
    compared
}

/// Risky in the first is Risky in the second, case by case.
fn compare_storeys(h: &Header, one: &Rows, other: &Rows) -> ComparedStorey {
    assert_eq!(one.storey.shears, other.storey.shears);
    assert_eq!(one.members.len(), other.members.len());
    let before = storey_finding(h, one);
    let after = storey_finding(h, &turned(other));
    for (f, worse) in before.cases.iter().zip(&after.cases) {
        assert!(!f.risky || worse.risky, "{one:?} {other:?}");
    }
    assert!(!before.risky || after.risky, "{one:?} {other:?}");
    let met = [met(&before), met(&after)];
    let partners = one.members.iter().zip(&other.members);
    ComparedStorey {
        members: partners
            .flat_map(|(m, partner)| compare_members(h, met, m, partner))
            .collect(),
        before,
        after,
    }
}

/// Holds the conditions and the claim. The second survey lists storeys and
/// members the other way round.
pub fn compare(pair: &Pair) -> Compared {
    let [h, worse_h] = &pair.headers;
    hold_headers(h, worse_h);
    let storeys = pair.storeys.iter();
    let firsts: Vec<Rows> = storeys.clone().map(|[one, _]| one.clone()).collect();
    let others = storeys.clone().rev().map(|[_, other]| turned(other));
    let others: Vec<Rows> = others.collect();
    let before = building_finding(h, &firsts);
    let after = building_finding(worse_h, &others);
    assert!(!before.risky || after.risky, "{pair:?}");
    Compared {
        before,
        after,
        storeys: storeys
            .map(|[one, other]| compare_storeys(h, one, other))
            .collect(),
    }
}

// ---- drawn pairs ----

impl Draw {
    fn worse_load(&mut self, wall: bool, load: &LoadCase) -> LoadCase {
        let more = |value: u64, by: u64| (value + by).min(9_999_999);
        LoadCase {
            n_k: (load.n_k + self.step(5_000) as i64).min(9_999_999),
            m_e: more(load.m_e, self.step(50_000)),
            m_p: load.m_p.saturating_sub(self.step(20_000)).max(1),
            v_e: more(load.v_e, self.step(500)),
            v_r: load.v_r.saturating_sub(self.step(500)).max(1),
            v: if wall {
                load.v
            } else {
                more(load.v, self.step(50))
            },
            rotation: more(load.rotation, self.step(3_000)),
            drift: more(load.drift, self.step(1_000)),
        }
    }

    /// The same member or a worse one, within the conditions on its class in
    /// every case.
    pub fn worse(&mut self, k: u64, form: u64, m: &Member) -> Member {
        let mut worse = Member {
            a_sh: m.a_sh.saturating_sub(self.step(200)),
            factor: m.factor.saturating_sub(self.step(30)),
            damage_kind: (m.damage_kind + self.yes(10)).min(4),
            n_d: (m.n_d + self.step(5_000) as i64).min(9_999_999),
            ..*m
        };
        for load in &mut worse.cases[..cases_of(form)] {
            *load = self.worse_load(is_wall(m), load);
        }
        keep_classes(k, form, m, &mut worse);
        worse
    }

    fn headers(&mut self, form: u64, storey_count: u64) -> [Header; 2] {
        let h = Header {
            knowledge: [90, 100][self.below(2) as usize],
            tilt_1: self.within(0, 25_100),
            tilt_2: self.within(0, 25_100),
            storey_count,
            form,
            ..super::header().record()
        };
        let worse = Header {
            height: h.height + 1,
            tilt_1: h.tilt_1 + self.step(100),
            tilt_2: h.tilt_2 + self.step(100),
            ..h
        };
        [h, worse]
    }

    /// One or two storeys of members drawn for k, the form and their number,
    /// each with its partner.
    pub fn pair(
        &mut self,
        form: u64,
        members: fn(&mut Draw, u64, u64, u64) -> [Member; 2],
    ) -> Pair {
        let storey_count = self.within(1, 2);
        let headers = self.headers(form, storey_count);
        let k = headers[0].knowledge;
        let mut storeys = Vec::new();
        for number in 1..=storey_count {
            let storey = Storey {
                number,
                shears: self.shears(form),
                count: self.within(1, 8),
            };
            let drawn: Vec<[Member; 2]> = (1..=storey.count)
                .map(|number| members(self, k, form, number))
                .collect();
            let worse_storey = Storey {
                number: 100 - number,
                ..storey
            };
            storeys.push([
                Rows {
                    storey,
                    members: drawn.iter().map(|m| m[0]).collect(),
                },
                Rows {
                    storey: worse_storey,
                    members: drawn.iter().map(|m| m[1]).collect(),
                },
            ]);
        }
        Pair { headers, storeys }
    }
}

/// Puts back what the class is read from where the conditions want it.
fn keep_classes(k: u64, form: u64, m: &Member, worse: &mut Member) {
    let before = judge_member(k, form, [false; 4], m).unwrap();
    let after = judge_member(k, form, [false; 4], worse).unwrap();
    for (i, (before, after)) in before.iter().zip(&after).enumerate() {
        if !class_allowed(m, before, after) {
            worse.a_sh = m.a_sh;
            worse.cases[i].v_e = m.cases[i].v_e;
            worse.cases[i].v_r = m.cases[i].v_r;
        }
    }
}

// ---- counts ----

/// What the drawn pairs tried.
#[derive(Debug, Default)]
pub struct Tried {
    /// In the first; in the second alone.
    pub over: [u64; 2],
    pub storeys_risky: [u64; 2],
    pub buildings_risky: [u64; 2],
    /// In the first, by case: A, B.
    pub walls: [u64; 2],
    /// From A to B.
    pub passed: u64,
}

fn count(counts: &mut [u64; 2], before: bool, after: bool) {
    counts[0] += before as u64;
    counts[1] += (after && !before) as u64;
}

impl Tried {
    pub fn add(&mut self, compared: &Compared) {
        let Compared { before, after, .. } = compared;
        count(&mut self.buildings_risky, before.risky, after.risky);
        for s in &compared.storeys {
            count(&mut self.storeys_risky, s.before.risky, s.after.risky);
            for c in &s.members {
                count(&mut self.over, c.before.over, c.after.over);
                self.walls[0] += (c.before.class == WALL_A) as u64;
                self.walls[1] += (c.before.class == WALL_B) as u64;
                self.passed += passes(&c.member, &c.before, &c.after) as u64;
            }
        }
    }

    pub fn least(&self) -> u64 {
        let counts = [
            self.over,
            self.storeys_risky,
            self.buildings_risky,
            self.walls,
            [self.passed; 2],
        ];
        *counts.iter().flatten().min().unwrap()
    }
}

// ---- surveys of one member ----

/// The finding of a member in a case (from 0), and whether its storey, of shear
/// 1,000, and its building are Risky where it is the only one.
pub fn alone(k: u64, form: u64, case: usize, m: &Member) -> (MemberFinding, bool, bool) {
    let mut shears = [0; 4];
    shears[..cases_of(form)].fill(1_000);
    let h = Header {
        knowledge: k,
        form,
        ..super::header().record()
    };
    let rows = Rows {
        storey: Storey {
            number: 1,
            shears,
            count: 1,
        },
        members: vec![*m],
    };
    let storey = storey_finding(&h, &rows);
    let found = judge_member(k, form, met(&storey), m).unwrap()[case];
    let building = building_finding(&h, &[rows]);
    (found, storey.risky, building.risky)
}

/// A member with its load in one case of the form and no demand in the others.
pub fn in_case(form: u64, case: usize, m: &super::old::Member) -> Member {
    let calm = LoadCase {
        m_p: 1,
        v_r: 1,
        ..LoadCase::default()
    };
    if form == OLD_FORM {
        return m.record();
    }
    let mut cases = [calm; 4];
    cases[case] = m.load();
    m.record_with(cases)
}
