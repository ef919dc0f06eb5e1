//! The storey and the case that the verdict names (document 02, N7), in both forms: the proved call against what each survey was made for, and
//! against the independent program.
use compare::{judge_building, member_rows, plain_column, same_building};
use generator::one_case;
use independent::lines::{CASES, CASE_FORM, OLD_FORM};
use independent::{Header, LoadCase, Member, Storey, Survey};

const STOREYS: usize = 3;
const TILTED: u64 = 25_001;

/// Storeys of one column each, numbered downwards, Risky in the cases that are set, by its rotation and its V.
fn survey(form: u64, risky: [[bool; CASES]; STOREYS], tilt_2: u64) -> Survey {
    let calm = LoadCase { v_r: 100, ..plain_column().cases[0] };
    let over = LoadCase { rotation: 9_999_999, v: 9_999_999, ..calm };
    let column = |cases: [bool; CASES]| {
        let load = cases.map(|on| if on { over } else { calm });
        Member { cases: if form == OLD_FORM { one_case(load[0]) } else { load }, ..plain_column() }
    };
    let shears = if form == OLD_FORM { [1_000, 0, 0, 0] } else { [1_000; CASES] };
    Survey {
        header: Header { knowledge: 100, height: 9_000, storeys: 3, tilt_1: 0, tilt_2, storey_count: STOREYS as u64, form },
        storeys: (0..STOREYS).map(|i| Storey { number: (STOREYS - i) as u64, shears, count: 1 }).collect(),
        members: risky.map(column).to_vec(),
    }
}

/// Place, case and Risky, by both programs.
fn named(survey: &Survey) -> (u64, u64, bool) {
    assert_eq!(same_building(survey), None, "{survey:?}");
    let rows = member_rows(&survey.members).expect("good members");
    let found = judge_building(&survey.header, &survey.storeys, &rows).expect("accepted");
    (found.place, found.case, found.risky)
}

/// Storey and case by the bits of a number, the first storey's first case lowest.
fn chosen(bits: usize, cases: usize) -> [[bool; CASES]; STOREYS] {
    let mut risky = [[false; CASES]; STOREYS];
    for (i, storey) in risky.iter_mut().enumerate() {
        for (c, case) in storey.iter_mut().enumerate().take(cases) {
            *case = bits >> (cases * i + c) & 1 == 1;
        }
    }
    risky
}

/// Every choice of Risky cases in three storeys.
#[test]
fn the_first_storey_and_its_lowest_case() {
    for bits in 0..1_usize << (STOREYS * CASES) {
        let lowest = bits.trailing_zeros() as usize;
        let due = if bits == 0 { (0, 0, false) } else { ((lowest / CASES + 1) as u64, (lowest % CASES + 1) as u64, true) };
        assert_eq!(named(&survey(CASE_FORM, chosen(bits, CASES), 0)), due, "{bits:012b}");
    }
}

/// In the old form the case is 1; tilt alone names no storey, and beside a Risky one it changes nothing.
#[test]
fn the_old_form_and_tilt() {
    for bits in 0..1_usize << STOREYS {
        let (place, case) = if bits == 0 { (0, 0) } else { (bits.trailing_zeros() as u64 + 1, 1) };
        for tilt in [0, TILTED] {
            assert_eq!(named(&survey(OLD_FORM, chosen(bits, 1), tilt)), (place, case, bits != 0 || tilt == TILTED), "{bits:03b}, tilt {tilt}");
        }
    }
    assert_eq!(named(&survey(CASE_FORM, chosen(0, CASES), TILTED)), (0, 0, true));
}

/// "One Risky by damage is so in every case": case 1, whatever is over in another.
#[test]
fn damage_is_named_in_case_1() {
    for place in 1..=STOREYS {
        let mut damaged = survey(CASE_FORM, chosen(1 << (CASES * (place - 1) + 2), CASES), 0);
        assert_eq!(named(&damaged), (place as u64, 3, true));
        damaged.members[place - 1].damage_kind = 4;
        assert_eq!(named(&damaged), (place as u64, 1, true));
    }
}
