//! The old form: flat records, one case, over the calls of both forms.

use independent::lines::OLD_FORM;
use independent::{BuildingFinding, LoadCase, MemberFinding, Refusal};

pub const HEADER_FIELDS: usize = 6;
pub const STOREY_FIELDS: usize = 3;
pub const MEMBER_FIELDS: usize = 27;

#[derive(Clone, Copy, Debug, Default, PartialEq, Eq)]
pub struct Header {
    pub knowledge: u64,
    pub height: u64,
    pub storeys: u64,
    pub tilt_1: u64,
    pub tilt_2: u64,
    pub storey_count: u64,
}

#[derive(Clone, Copy, Debug, Default, PartialEq, Eq)]
pub struct Storey {
    pub number: u64,
    pub shear: u64,
    pub member_count: u64,
}

#[derive(Clone, Copy, Debug, Default, PartialEq, Eq)]
pub struct Member {
    pub number: u64,
    pub long_side: u64,
    pub short_side: u64,
    pub a_c: u64,
    pub f_cm: u64,
    pub f_ctm: u64,
    pub f_yw: u64,
    pub d: u64,
    pub h_w: u64,
    pub s: u64,
    pub b_k: u64,
    pub a_sh: u64,
    pub hooks: u64,
    pub boundary_zone: u64,
    pub strengthened: u64,
    pub factor: u64,
    pub damage_kind: u64,
    pub n_d: i64,
    pub n_k: i64,
    pub m_e: u64,
    pub m_p: u64,
    pub v_e: u64,
    pub v_r: u64,
    pub v: u64,
    pub rotation: u64,
    pub drift: u64,
    pub annex_e: u64,
}

#[derive(Clone, Debug, Default, PartialEq, Eq)]
pub struct Survey {
    pub header: Header,
    pub storeys: Vec<Storey>,
    pub members: Vec<Member>,
}

#[derive(Clone, Debug, PartialEq, Eq)]
pub struct StoreyFinding {
    pub number: u64,
    pub sum: u64,
    pub c: u64,
    pub p: u64,
    pub w: u64,
    pub risky: bool,
    pub meets_wall_share: bool,
}

// ---- to the records of both forms and back ----

impl Header {
    pub fn record(&self) -> independent::Header {
        independent::Header::from_values(&self.fields(), OLD_FORM)
    }

    pub fn fields(&self) -> [i128; HEADER_FIELDS] {
        [
            self.knowledge as i128,
            self.height as i128,
            self.storeys as i128,
            self.tilt_1 as i128,
            self.tilt_2 as i128,
            self.storey_count as i128,
        ]
    }

    pub fn from_fields(f: &[i128; HEADER_FIELDS]) -> Header {
        Header {
            knowledge: f[0] as u64,
            height: f[1] as u64,
            storeys: f[2] as u64,
            tilt_1: f[3] as u64,
            tilt_2: f[4] as u64,
            storey_count: f[5] as u64,
        }
    }
}

impl Storey {
    pub fn record(&self) -> independent::Storey {
        independent::Storey {
            number: self.number,
            shears: [self.shear, 0, 0, 0],
            count: self.member_count,
        }
    }

    pub fn fields(&self) -> [i128; STOREY_FIELDS] {
        let values = [self.number, self.shear, self.member_count];
        values.map(|value| value as i128)
    }

    pub fn from_fields(f: &[i128; STOREY_FIELDS]) -> Storey {
        let [number, shear, member_count] = f.map(|value| value as u64);
        Storey {
            number,
            shear,
            member_count,
        }
    }
}

impl Member {
    pub fn load(&self) -> LoadCase {
        LoadCase {
            n_k: self.n_k,
            m_e: self.m_e,
            m_p: self.m_p,
            v_e: self.v_e,
            v_r: self.v_r,
            v: self.v,
            rotation: self.rotation,
            drift: self.drift,
        }
    }

    pub fn record(&self) -> independent::Member {
        self.record_with([self.load(), ZERO, ZERO, ZERO])
    }

    /// The member with these cases in place of its own.
    pub fn record_with(&self, cases: [LoadCase; 4]) -> independent::Member {
        independent::Member {
            number: self.number,
            long_side: self.long_side,
            short_side: self.short_side,
            a_c: self.a_c,
            f_cm: self.f_cm,
            f_ctm: self.f_ctm,
            f_yw: self.f_yw,
            d: self.d,
            h_w: self.h_w,
            s: self.s,
            b_k: self.b_k,
            a_sh: self.a_sh,
            hooks: self.hooks,
            boundary_zone: self.boundary_zone,
            strengthened: self.strengthened,
            factor: self.factor,
            damage_kind: self.damage_kind,
            n_d: self.n_d,
            annex_e: self.annex_e,
            cases,
        }
    }

    pub fn fields(&self) -> [i128; MEMBER_FIELDS] {
        let m = self.record();
        let (before, after) = (&m.values()[..18], [self.annex_e as i128]);
        let values = [before, &m.cases[0].values(), &after].concat();
        values.try_into().unwrap()
    }

    pub fn from_fields(f: &[i128; MEMBER_FIELDS]) -> Member {
        let cases = [LoadCase::from_values(&f[18..26]), ZERO, ZERO, ZERO];
        let once = [&f[..18], &f[26..]].concat();
        flat(&independent::Member::from_values(&once, cases), 0)
    }
}

const ZERO: LoadCase = LoadCase {
    n_k: 0,
    m_e: 0,
    m_p: 0,
    v_e: 0,
    v_r: 0,
    v: 0,
    rotation: 0,
    drift: 0,
};

/// What a member is in its case `i`, from 0.
pub fn flat(m: &independent::Member, i: usize) -> Member {
    let load = m.cases[i];
    Member {
        number: m.number,
        long_side: m.long_side,
        short_side: m.short_side,
        a_c: m.a_c,
        f_cm: m.f_cm,
        f_ctm: m.f_ctm,
        f_yw: m.f_yw,
        d: m.d,
        h_w: m.h_w,
        s: m.s,
        b_k: m.b_k,
        a_sh: m.a_sh,
        hooks: m.hooks,
        boundary_zone: m.boundary_zone,
        strengthened: m.strengthened,
        factor: m.factor,
        damage_kind: m.damage_kind,
        n_d: m.n_d,
        n_k: load.n_k,
        m_e: load.m_e,
        m_p: load.m_p,
        v_e: load.v_e,
        v_r: load.v_r,
        v: load.v,
        rotation: load.rotation,
        drift: load.drift,
        annex_e: m.annex_e,
    }
}

pub fn storey_records(storeys: &[Storey]) -> Vec<independent::Storey> {
    storeys.iter().map(Storey::record).collect()
}

pub fn member_records(members: &[Member]) -> Vec<independent::Member> {
    members.iter().map(Member::record).collect()
}

/// The flat survey; cases that the old form lacks must hold 0.
pub fn flat_survey(survey: &independent::Survey) -> Survey {
    assert_eq!(survey.header.form, OLD_FORM);
    let h = &survey.header;
    let flat_storey = |s: &independent::Storey| {
        assert_eq!(s.shears[1..], [0, 0, 0]);
        Storey {
            number: s.number,
            shear: s.shears[0],
            member_count: s.count,
        }
    };
    let flat_member = |m: &independent::Member| {
        assert_eq!(m.cases[1..], [ZERO, ZERO, ZERO]);
        flat(m, 0)
    };
    Survey {
        header: Header::from_fields(&h.values()),
        storeys: survey.storeys.iter().map(flat_storey).collect(),
        members: survey.members.iter().map(flat_member).collect(),
    }
}

// ---- the calls ----

/// The conditions of the lacking cases change nothing.
pub fn judge_member(k: u64, met: bool, m: &Member) -> Result<MemberFinding, Refusal> {
    let of = |others| {
        let met = [met, others, others, others];
        independent::judge_member(k, OLD_FORM, met, &m.record())
    };
    assert_eq!(of(false), of(true));
    of(false).map(|found| {
        assert_eq!(found.len(), 1);
        found[0]
    })
}

pub fn judge_storey(k: u64, s: &Storey, members: &[Member]) -> Result<StoreyFinding, Refusal> {
    let members = member_records(members);
    let f = independent::judge_storey(k, OLD_FORM, &s.record(), &members)?;
    assert_eq!(f.cases.len(), 1);
    let case = f.cases[0];
    assert_eq!(f.risky, case.risky);
    assert_eq!(
        case.risky,
        case.by_share || case.by_one_over || case.by_damage
    );
    Ok(StoreyFinding {
        number: f.number,
        sum: f.sum,
        c: f.c,
        p: case.p,
        w: case.w,
        risky: f.risky,
        meets_wall_share: case.meets_wall_share,
    })
}

pub fn judge_building(
    h: &Header,
    storeys: &[Storey],
    members: &[Member],
) -> Result<BuildingFinding, Refusal> {
    let (storeys, members) = (storey_records(storeys), member_records(members));
    independent::judge_building(&h.record(), &storeys, &members)
}

pub fn report(
    h: &Header,
    storeys: &[Storey],
    members: &[Member],
    buffer_len: usize,
) -> Result<Vec<u8>, Refusal> {
    let (storeys, members) = (storey_records(storeys), member_records(members));
    independent::report(&h.record(), &storeys, &members, buffer_len)
}

pub fn write_survey(
    h: &Header,
    storeys: &[Storey],
    members: &[Member],
    buffer_len: usize,
) -> Result<Vec<u8>, Refusal> {
    let (storeys, members) = (storey_records(storeys), member_records(members));
    independent::write_survey(&h.record(), &storeys, &members, buffer_len)
}

pub fn read(bytes: &[u8], storey_rows: usize, member_rows: usize) -> Result<Survey, Refusal> {
    independent::read(bytes, storey_rows, member_rows).map(|survey| flat_survey(&survey))
}
