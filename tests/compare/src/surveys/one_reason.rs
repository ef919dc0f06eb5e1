//! Surveys that are Risky for one reason alone.
use super::building;
use super::old_form::{column, loaded, one_storey};
use independent::lines::OLD_FORM;
use independent::{Header, LoadCase, Member, Survey};

/// Two storeys of 3 m with these columns.
fn two_storeys(ground: Vec<Member>, second: Vec<Member>) -> Survey {
    let header = Header { knowledge: 90, height: 6_000, storeys: 2, tilt_1: 400, tilt_2: 300, form: OLD_FORM, ..Header::default() };
    building(header, &[ground, second])
}

/// Six columns in each storey, the third and fourth inside. A crack wider than 2 mm stayed in one of each storey; another of the first lost its
/// cover.
pub fn damage() -> Survey {
    let column = |n_d, load| loaded(column(), n_d, load);
    let cracked = |member| Member { damage_kind: 1, factor: 75, ..member };
    let spalled = |member| Member { damage_kind: 2, factor: 60, ..member };
    let corner = column(2_600, LoadCase { n_k: 3_100, m_e: 2_300, m_p: 1_450, v_e: 880, v_r: 1_500, v: 1_350, rotation: 6_100, drift: 6_700 });
    let inner = column(4_300, LoadCase { n_k: 4_600, m_e: 2_600, m_p: 1_600, v_e: 930, v_r: 1_500, v: 1_600, rotation: 6_300, drift: 6_700 });
    let upper = column(1_300, LoadCase { n_k: 1_550, m_e: 1_400, m_p: 1_150, v_e: 700, v_r: 1_460, v: 800, rotation: 3_900, drift: 4_300 });
    let upper_inner = column(2_150, LoadCase { n_k: 2_250, m_e: 1_600, m_p: 1_250, v_e: 760, v_r: 1_460, v: 950, rotation: 4_000, drift: 4_300 });
    two_storeys(
        vec![corner, corner, cracked(inner), spalled(inner), corner, corner],
        vec![upper, upper, cracked(upper_inner), upper_inner, upper, upper],
    )
}

/// Four columns in each storey; the building leans by more than 0.025 in one direction.
pub fn tilt() -> Survey {
    let column = |n_d, load| loaded(column(), n_d, load);
    let ground = column(3_200, LoadCase { n_k: 3_700, m_e: 2_600, m_p: 1_500, v_e: 900, v_r: 1_500, v: 1_500, rotation: 7_400, drift: 7_900 });
    let second = column(1_600, LoadCase { n_k: 1_850, m_e: 1_500, m_p: 1_200, v_e: 720, v_r: 1_460, v: 900, rotation: 4_200, drift: 4_600 });
    let upright = two_storeys(vec![ground; 4], vec![second; 4]);
    Survey { header: Header { tilt_1: 26_400, tilt_2: 3_100, ..upright.header }, ..upright }
}

/// Six columns in very weak concrete under high axial load, and a post between them that is hinged at head and foot: no moment, no shear.
pub fn axial_load() -> Survey {
    let weak = Member { f_cm: 80, f_ctm: 99, ..column() };
    let post = Member { long_side: 300, a_c: 90_000, d: 260, ..weak };
    let corner = loaded(weak, 7_200, LoadCase { n_k: 7_700, m_e: 1_250, m_p: 1_300, v_e: 800, v_r: 1_350, v: 950, rotation: 3_300, drift: 3_700 });
    let inner = loaded(weak, 8_300, LoadCase { n_k: 8_600, m_e: 1_000, m_p: 1_250, v_e: 770, v_r: 1_350, v: 900, rotation: 3_400, drift: 3_700 });
    let post = loaded(post, 5_900, LoadCase { n_k: 6_000, m_e: 0, m_p: 500, v_e: 0, v_r: 800, v: 0, rotation: 3_500, drift: 3_700 });
    one_storey(90, 5, vec![corner, corner, inner, post, inner, corner, corner])
}
