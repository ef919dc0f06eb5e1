//! The surveys that are measured: columns and walls of all classes as a survey of a concrete building has them.
use generator::Rng;
use independent::lines::{cases_of, CASE_FORM, OLD_FORM};
use independent::{Header, LoadCase, Member, Storey, Survey};

/// Both forms.
pub const FORMS: [u64; 2] = [OLD_FORM, CASE_FORM];

/// The members of each storey in surveys of 10 and 100 members.
pub const BOTH: [&[u64]; 2] = [&[5; 2], &[25; 4]];

/// And in those of as many members as a file of 65,536 bytes holds in six storeys: 299, or 144 in four cases.
pub fn sizes(form: u64) -> [&'static [u64]; 3] {
    let most: &[u64] = if form == CASE_FORM { &[24; 6] } else { &[50, 50, 50, 50, 50, 49] };
    [BOTH[0], BOTH[1], most]
}

/// The numbers of storeys of 200 members by which growth is measured.
pub const GROWTH: [usize; 4] = [1, 2, 4, 8];

/// The members of each storey where there are so many storeys of 200.
pub fn growth(storeys: usize) -> Vec<u64> {
    vec![200; storeys]
}

const SEED: u64 = 2;

/// Hundredths.
const KNOWLEDGE: u64 = 90;

#[derive(Clone, Copy)]
enum Kind {
    ColumnA,
    ColumnB,
    ColumnC,
    WallA,
    WallB,
}

/// Members come in this order, again and again.
const KINDS: [Kind; 10] = [
    Kind::ColumnA,
    Kind::ColumnB,
    Kind::ColumnC,
    Kind::WallA,
    Kind::ColumnB,
    Kind::ColumnA,
    Kind::ColumnB,
    Kind::WallB,
    Kind::ColumnB,
    Kind::WallA,
];

/// A survey of a form whose storeys have so many members each; the same one for the same form and sizes.
pub fn survey(form: u64, sizes: &[u64]) -> Survey {
    let mut rng = Rng::new(SEED);
    let mut survey = Survey { header: header(form, sizes.len() as u64), ..Survey::default() };
    for (number, &count) in (1..).zip(sizes) {
        let first = survey.members.len();
        for j in 0..count {
            let kind = KINDS[survey.members.len() % KINDS.len()];
            survey.members.push(Member { number: 1_000 * number + j + 1, annex_e: j % 2, ..member(&mut rng, form, kind) });
        }
        let shear = |i: usize| survey.members[first..].iter().map(|m| m.cases[i].v).sum();
        survey.storeys.push(Storey { number, shears: std::array::from_fn(shear), count });
    }
    survey
}

fn header(form: u64, storeys: u64) -> Header {
    Header {
        knowledge: KNOWLEDGE,
        height: 3_000 * storeys,
        storeys: storeys,
        tilt_1: 3_100,
        tilt_2: 1_250,
        storey_count: storeys,
        form,
    }
}

fn between(rng: &mut Rng, least: u64, most: u64) -> u64 {
    rng.between(least.into(), most.into()) as u64
}

/// A number from one percentage of it to another.
fn share(rng: &mut Rng, of: u64, least: u64, most: u64) -> u64 {
    of * between(rng, least, most) / 100
}

fn member(rng: &mut Rng, form: u64, kind: Kind) -> Member {
    let mut m = ordinary(rng);
    match kind {
        Kind::ColumnA => column(rng, &mut m, true),
        Kind::ColumnB | Kind::ColumnC => column(rng, &mut m, false),
        Kind::WallA | Kind::WallB => wall(rng, &mut m),
    }
    m.d = m.long_side * 9 / 10;
    m.a_c = m.long_side * m.short_side;
    let axial = if matches!(kind, Kind::WallA | Kind::WallB) { (5_000, 30_000) } else { (5_000, 95_000) };
    let force = between(rng, axial.0, axial.1) * m.f_cm * m.a_c / 100_000_000;
    m.n_d = share(rng, force, 70, 100) as i64;
    for i in 0..cases_of(form) {
        m.cases[i] = load_case(rng, kind, &m, force);
    }
    m
}

/// What columns and walls have alike.
fn ordinary(rng: &mut Rng) -> Member {
    let f_cm = between(rng, 80, 250);
    let damaged = rng.chance(10);
    Member {
        f_cm,
        f_ctm: 80 + f_cm / 3,
        f_yw: rng.pick(&[2_200, 4_200]),
        h_w: 3_000 * between(rng, 3, 5),
        strengthened: rng.chance(10).into(),
        factor: if damaged { between(rng, 60, 95) } else { 100 },
        damage_kind: if damaged { between(rng, 1, 3) } else { 0 },
        ..Member::default()
    }
}

/// Detailed or not.
fn column(rng: &mut Rng, m: &mut Member, detailed: bool) {
    m.short_side = 50 * between(rng, 5, 8);
    m.long_side = m.short_side + 50 * between(rng, 0, 6);
    m.b_k = m.short_side - 60;
    m.hooks = detailed.into();
    if detailed {
        m.s = 10 * between(rng, 8, 10);
        m.a_sh = 6 * m.f_cm * m.s * m.b_k / (100 * m.f_yw) + between(rng, 1, 100);
    } else {
        m.s = 10 * between(rng, 15, 25);
        m.a_sh = between(rng, 57, 226);
    }
}

fn wall(rng: &mut Rng, m: &mut Member) {
    m.short_side = 50 * between(rng, 4, 6);
    m.long_side = 100 * between(rng, 15, 40);
    m.b_k = m.short_side - 50;
    m.s = 10 * between(rng, 10, 25);
    m.a_sh = between(rng, 57, 226);
    m.boundary_zone = rng.chance(50).into();
}

/// A load case with N_K about this force, some of them in tension.
fn load_case(rng: &mut Rng, kind: Kind, m: &Member, force: u64) -> LoadCase {
    let (v_e, v_r) = match kind {
        Kind::ColumnA => column_shear(rng, (20, 60)),
        Kind::ColumnB => column_shear(rng, (20, 95)),
        Kind::ColumnC => column_shear(rng, (101, 140)),
        Kind::WallA => wall_shear(rng, m, (120, 200)),
        Kind::WallB => wall_shear(rng, m, (70, 100)),
    };
    let m_p = between(rng, 500, 4_000);
    LoadCase {
        n_k: if rng.chance(5) { -m.n_d / 4 } else { share(rng, force, 90, 105) as i64 },
        m_e: share(rng, m_p, 30, 300),
        m_p,
        v_e,
        v_r,
        v: share(rng, v_e, 40, 90),
        rotation: between(rng, 300, 10_000),
        drift: between(rng, 1_000, 15_000),
    }
}

/// V_e and V_r, V_e from one percentage of V_r to another.
fn column_shear(rng: &mut Rng, demand: (u64, u64)) -> (u64, u64) {
    let v_r = between(rng, 500, 3_000);
    (share(rng, v_r, demand.0, demand.1), v_r)
}

/// The same with v near the rows of the tables, and V_r from one percentage of V_e to another.
fn wall_shear(rng: &mut Rng, m: &Member, capacity: (u64, u64)) -> (u64, u64) {
    let v_e = between(rng, 70_000, 150_000) * m.short_side * m.d / 1_000_000_000 * m.f_ctm;
    (v_e, share(rng, v_e, capacity.0, capacity.1))
}
