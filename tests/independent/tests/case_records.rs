//! Records of both forms: each refusal and the order among them.

mod common;

use common::cases::{block, header, members, storey, survey};
use common::{member, refused};
use independent::lines::{CASE_FORM, OLD_FORM};
use independent::{
    judge_building, judge_member, judge_storey, report, write_survey, Header, LoadCase, Member,
    Storey, Survey,
};

/// Forms there are not.
const UNKNOWN: [u64; 5] = [0, 3, 4, u64::MAX, 1 << 63];

/// The refusal of the calls on a whole survey, the same for each.
fn of_survey(survey: &Survey) -> u8 {
    let (h, storeys, members) = (&survey.header, &survey.storeys, &survey.members);
    let from_building = refused(judge_building(h, storeys, members));
    for room in [0, usize::MAX] {
        assert_eq!(refused(report(h, storeys, members, room)), from_building);
        let from_writing = refused(write_survey(h, storeys, members, room));
        assert_eq!(from_writing, from_building);
    }
    assert_eq!(from_building.1, 0);
    from_building.0
}

fn is_accepted(survey: &Survey) -> bool {
    judge_building(&survey.header, &survey.storeys, &survey.members).is_ok()
}

/// The worked example as records.
fn old_survey() -> Survey {
    Survey {
        header: common::header().record(),
        storeys: vec![common::storey().record()],
        members: vec![member().record(), common::second_member().record()],
    }
}

#[test]
fn an_unknown_form() {
    for form in UNKNOWN {
        for mut survey in [survey(), old_survey()] {
            survey.header.form = form;
            assert_eq!(of_survey(&survey), 3);
            let (s, members) = (survey.storeys[0], survey.members);
            assert_eq!(refused(judge_storey(100, form, &s, &members)), (3, 0));
            assert_eq!(
                refused(judge_member(100, form, [true; 4], &members[0])),
                (3, 0)
            );
        }
    }
    // A field of the header: after 1, before 7 and all records.
    let mut survey = survey();
    survey.header.form = 3;
    survey.header.height = 30_001;
    survey.members[0].short_side = 301;
    assert_eq!(of_survey(&survey), 3);
    survey.header.form = CASE_FORM;
    assert_eq!(of_survey(&survey), 7);
    survey.header.form = 0;
    survey.members.pop();
    assert_eq!(of_survey(&survey), 1);
    let bad_side = survey.members[0];
    assert_eq!(
        refused(judge_storey(100, 0, &storey(), &[bad_side])),
        (1, 0)
    );
    assert_eq!(refused(judge_member(100, 0, [false; 4], &bad_side)), (3, 0));
    assert_eq!(
        refused(judge_member(100, CASE_FORM, [false; 4], &bad_side)),
        (4, 0)
    );
}

/// Records of one form under the other's number.
#[test]
fn the_other_form() {
    let mut other = survey();
    other.header.form = OLD_FORM;
    assert_eq!(of_survey(&other), 3);
    let mut other = old_survey();
    other.header.form = CASE_FORM;
    assert_eq!(of_survey(&other), 3);
    let (s, [m, _]) = (storey(), members());
    assert_eq!(refused(judge_member(100, OLD_FORM, [true; 4], &m)), (3, 0));
    assert_eq!(
        refused(judge_member(100, CASE_FORM, [true; 4], &member().record())),
        (3, 0)
    );
    assert_eq!(refused(judge_storey(100, OLD_FORM, &s, &members())), (3, 0));
}

/// Each of a case's fields at one, the others 0.
fn ones() -> [LoadCase; 9] {
    let none = LoadCase::default();
    [
        LoadCase { n_k: 1, ..none },
        LoadCase { n_k: -1, ..none },
        LoadCase { m_e: 1, ..none },
        LoadCase { m_p: 1, ..none },
        LoadCase { v_e: 1, ..none },
        LoadCase { v_r: 1, ..none },
        LoadCase { v: 1, ..none },
        LoadCase {
            rotation: 1,
            ..none
        },
        LoadCase { drift: 1, ..none },
    ]
}

#[test]
fn cases_that_the_old_form_lacks() {
    assert!(is_accepted(&old_survey()));
    for i in 1..4 {
        for load in ones() {
            let mut survey = old_survey();
            survey.members[1].cases[i] = load;
            assert_eq!(of_survey(&survey), 3);
            let m = survey.members[1];
            assert_eq!(refused(judge_member(100, OLD_FORM, [true; 4], &m)), (3, 0));
            let s = survey.storeys[0];
            assert_eq!(
                refused(judge_storey(100, OLD_FORM, &s, &survey.members)),
                (3, 0)
            );
            // Before 4 and 5 of the same record.
            survey.members[1].short_side = 301;
            assert_eq!(of_survey(&survey), 3);
            survey.members[1].cases[i] = LoadCase::default();
            assert_eq!(of_survey(&survey), 4);
        }
        for shear in [1, 9_999_999, u64::MAX] {
            let mut survey = old_survey();
            survey.storeys[0].shears[i] = shear;
            assert_eq!(of_survey(&survey), 3);
            let s = survey.storeys[0];
            assert_eq!(
                refused(judge_storey(100, OLD_FORM, &s, &survey.members)),
                (3, 0)
            );
        }
    }
    // In case 1 they stand as any other field.
    let mut survey = old_survey();
    survey.members[0].cases[0].m_p = 0;
    assert_eq!(of_survey(&survey), 3);
    let mut survey = old_survey();
    survey.storeys[0].shears[0] = 0;
    assert_eq!(of_survey(&survey), 3);
}

/// Least and most of a case's fields.
const ENDS: [(i128, i128); 8] = [
    (-999_999, 9_999_999),
    (0, 9_999_999),
    (1, 9_999_999),
    (0, 9_999_999),
    (1, 9_999_999),
    (0, 9_999_999),
    (0, 9_999_999),
    (0, 9_999_999),
];

#[test]
fn ranges_in_every_case() {
    for i in 0..4 {
        for (field, (least, most)) in ENDS.into_iter().enumerate() {
            let with_value = |value: i128| {
                let mut survey = survey();
                let mut values = survey.members[0].cases[i].values();
                values[field] = value;
                survey.members[0].cases[i] = LoadCase::from_values(&values);
                survey
            };
            for value in [least, most] {
                assert!(is_accepted(&with_value(value)));
            }
            for value in [least - 1, most + 1, i64::MAX as i128, i64::MIN as i128] {
                let survey = with_value(value);
                assert_eq!(of_survey(&survey), 3);
                let m = survey.members[0];
                assert_eq!(refused(judge_member(90, CASE_FORM, [false; 4], &m)), (3, 0));
            }
        }
        for shear in [1, 9_999_999] {
            let mut survey = survey();
            survey.storeys[0].shears[i] = shear;
            assert!(is_accepted(&survey));
        }
        for shear in [0, 10_000_000, u64::MAX] {
            let mut survey = survey();
            survey.storeys[0].shears[i] = shear;
            assert_eq!(of_survey(&survey), 3);
        }
    }
}

#[test]
fn order_of_refusals() {
    let mut survey = block(2, 2);
    // From the last to be found to the first, each added to those before.
    survey.members[3].number = survey.members[2].number;
    assert_eq!(of_survey(&survey), 5);
    survey.members[3].short_side = 301;
    assert_eq!(of_survey(&survey), 4);
    survey.members[3].cases[3].drift = 10_000_000;
    assert_eq!(of_survey(&survey), 3);
    survey.storeys[1].number = survey.storeys[0].number;
    assert_eq!(of_survey(&survey), 5);
    survey.storeys[1].shears[3] = 0;
    assert_eq!(of_survey(&survey), 3);
    survey.members[1].short_side = 301;
    assert_eq!(of_survey(&survey), 4);
    survey.members[0].cases[2].m_p = 0;
    assert_eq!(of_survey(&survey), 3);
    survey.header.height = 30_001;
    assert_eq!(of_survey(&survey), 7);
    survey.header.knowledge = 95;
    assert_eq!(of_survey(&survey), 3);
    survey.members.pop();
    assert_eq!(of_survey(&survey), 1);
}

#[test]
fn order_in_the_storey_call() {
    let of = |k, form, s: &Storey, members: &[Member]| refused(judge_storey(k, form, s, members)).0;
    let [m, _] = members();
    let bad_side = Member {
        short_side: 301,
        ..m
    };
    let bad = Storey {
        shears: [1_000, 500, 0, 400],
        ..storey()
    };
    assert_eq!(of(95, 7, &bad, &[bad_side]), 1);
    assert_eq!(of(95, CASE_FORM, &storey(), &[bad_side, bad_side]), 3);
    assert_eq!(of(100, 7, &storey(), &[bad_side, bad_side]), 3);
    assert_eq!(of(100, CASE_FORM, &bad, &[bad_side, bad_side]), 3);
    assert_eq!(of(100, CASE_FORM, &storey(), &[bad_side, bad_side]), 4);
    assert_eq!(of(100, CASE_FORM, &storey(), &[m, m]), 5);
    let none = Storey {
        count: 0,
        ..storey()
    };
    assert_eq!(of(100, CASE_FORM, &none, &[]), 3);
}

#[test]
fn extreme_records_never_panic() {
    for value in [0, 1, u64::MAX, u64::MAX - 1, 1 << 63, u32::MAX as u64] {
        for force in [i64::MIN, -1, 0, 1, i64::MAX] {
            let load = LoadCase {
                n_k: force,
                m_e: value,
                m_p: value,
                v_e: value,
                v_r: value,
                v: value,
                rotation: value,
                drift: value,
            };
            let base = members()[0];
            let none = LoadCase::default();
            for cases in [[load; 4], [base.cases[0], load, none, none]] {
                let m = Member { cases, ..base };
                let wild = Member::from_values(&[value as i128; 19], cases);
                let wild = Member { n_d: force, ..wild };
                let s = Storey {
                    number: value,
                    shears: [value; 4],
                    count: value,
                };
                for form in [value, OLD_FORM, CASE_FORM] {
                    let h = Header {
                        knowledge: value,
                        height: value,
                        storeys: value,
                        tilt_1: value,
                        tilt_2: value,
                        storey_count: value,
                        form,
                    };
                    for m in [m, wild] {
                        for k in [value, 90, 100] {
                            let _ = judge_member(k, form, [true; 4], &m);
                            let _ = judge_storey(k, form, &s, &[m]);
                            let _ = judge_storey(k, form, &Storey { count: 1, ..s }, &[m]);
                        }
                        for h in [h, Header { form, ..header() }] {
                            for s in [s, Storey { count: 1, ..s }] {
                                let _ = judge_building(&h, &[s], &[m]);
                                let _ = report(&h, &[s, s], &[m], value as usize);
                                let _ = write_survey(&h, &[s], &[m], value as usize);
                            }
                        }
                    }
                }
            }
        }
    }
}
