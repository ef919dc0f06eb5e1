//! Strengthened walls and the last field of the M line.

mod common;

use common::old::{judge_member, judge_storey, Member};
use common::{cases, detailed, line, member, refused, wall, with_field, with_number};
use independent::lines::CASE_FORM;
use independent::{determine, read, write_survey};

/// A wall of class B by its height, strengthened, not detailed to annex E. v is
/// V_e.
fn wall_b() -> Member {
    Member {
        h_w: 1,
        v_r: 9_999_999,
        strengthened: 1,
        ..wall()
    }
}

fn limits(m: &Member) -> (u8, u64, u64) {
    let f = judge_member(100, false, m).unwrap();
    (f.class, f.m_limit, f.rotation_limit)
}

#[test]
fn both_limits_are_halved() {
    let of = |strengthened, annex_e, v_e| {
        limits(&Member {
            strengthened,
            annex_e,
            v_e,
            ..wall_b()
        })
    };
    assert_eq!(of(1, 0, 90_000), (5, 250_000, 10_000));
    assert_eq!(of(1, 0, 110_000), (5, 187_500, 7_500));
    assert_eq!(of(1, 0, 130_000), (5, 125_000, 5_000));
    for (strengthened, annex_e) in [(0, 0), (0, 1), (1, 1)] {
        assert_eq!(of(strengthened, annex_e, 90_000), (5, 500_000, 20_000));
        assert_eq!(of(strengthened, annex_e, 110_000), (5, 375_000, 15_000));
        assert_eq!(of(strengthened, annex_e, 130_000), (5, 250_000, 10_000));
    }
    // Class B by its shear, with or without boundary zone.
    for boundary_zone in [0, 1] {
        let m = Member {
            h_w: 2_000,
            v_r: 90_000,
            boundary_zone,
            ..wall_b()
        };
        assert_eq!(limits(&m), (5, 250_000, 10_000));
    }
}

#[test]
fn every_other_member_keeps_its_limits() {
    for annex_e in [0, 1] {
        // Walls of class A, strengthened or not.
        for strengthened in [0, 1] {
            let m = Member {
                strengthened,
                annex_e,
                ..wall()
            };
            assert_eq!(limits(&m), (4, 700_000, 30_000));
            let m = Member {
                boundary_zone: 0,
                ..m
            };
            assert_eq!(limits(&m), (4, 450_000, 15_000));
        }
        // Columns: 3/4 for A and B, C as in the table.
        let column = |m: Member| {
            limits(&Member {
                annex_e,
                strengthened: 1,
                ..m
            })
        };
        assert_eq!(column(detailed()), (1, 337_500, 20_625));
        assert_eq!(column(member()), (2, 194_318, 9_375));
        let c = Member {
            v_e: 111,
            n_k: 7_650,
            ..member()
        };
        assert_eq!(column(c), (3, 100_000, 2_500));
    }
}

/// At v 90,010 the table has 499,937.5 and 19,997.5.
#[test]
fn rounded_once_with_the_factor() {
    let of = |factor| {
        limits(&Member {
            v_e: 90_010,
            factor,
            ..wall_b()
        })
    };
    assert_eq!(of(100), (5, 249_968, 9_998));
    // 7,999 exactly; rounded before the factor it would be 7,998.
    assert_eq!(of(80), (5, 249_968, 7_999));
    assert_eq!(of(1), (5, 249_968, 99));
    assert_eq!(of(0), (5, 249_968, 0));
}

#[test]
fn over_past_the_halved_limits() {
    let over = |m: &Member| judge_member(100, false, m).unwrap().over;
    let m = Member {
        m_e: 250_000,
        m_p: 100_000,
        rotation: 10_000,
        drift: 9_999,
        ..wall_b()
    };
    assert!(!over(&m));
    assert!(over(&Member { m_e: 250_001, ..m }));
    assert!(over(&Member {
        rotation: 10_001,
        ..m
    }));
    let with_mark = Member { annex_e: 1, ..m };
    assert!(!over(&Member {
        m_e: 500_000,
        rotation: 20_000,
        ..with_mark
    }));
    assert!(over(&Member {
        rotation: 20_001,
        ..with_mark
    }));
    // The m test is dropped as for any wall.
    let m = Member {
        m_e: 250_001,
        drift: 7_499,
        ..m
    };
    assert!(!judge_member(100, true, &m).unwrap().over);
    assert!(judge_member(100, false, &m).unwrap().over);
    // The storey's 0.40 condition does not read the mark.
    let s = common::storey();
    for annex_e in [0, 1] {
        let its = [
            Member {
                v: 400,
                annex_e,
                ..m
            },
            common::second_member(),
        ];
        assert!(judge_storey(100, &s, &its).unwrap().meets_wall_share);
    }
}

/// The class is that of the case, and with it the halving.
#[test]
fn halved_in_the_cases_of_class_b() {
    let flat = Member {
        strengthened: 1,
        ..wall()
    };
    let mut m = flat.record_with([flat.load(); 4]);
    m.cases[1].v_r = 90_000;
    m.cases[3].v_r = 1;
    let of = |m: &independent::Member| -> Vec<(u8, u64, u64)> {
        let found = independent::judge_member(100, CASE_FORM, [true; 4], m).unwrap();
        found
            .iter()
            .map(|f| (f.class, f.m_limit, f.rotation_limit))
            .collect()
    };
    let (a, b) = ((4, 700_000, 30_000), (5, 250_000, 10_000));
    assert_eq!(of(&m), [a, b, a, b]);
    m.annex_e = 1;
    let b = (5, 500_000, 20_000);
    assert_eq!(of(&m), [a, b, a, b]);
}

// ---- the field ----

/// Both examples with one line changed.
fn changed(mut lines: Vec<String>, place: usize, text: String) -> Vec<u8> {
    lines[place - 1] = text;
    lines.concat().into_bytes()
}

#[test]
fn the_mark_is_read_and_written() {
    for mark in [0, 1] {
        let m2 = with_number(&line('M', common::M2), 27, mark);
        let file = changed(common::example_lines(), 4, m2);
        let survey = read(&file, 1, 2).unwrap();
        assert_eq!(survey.members[0].annex_e, 0);
        assert_eq!(survey.members[1].annex_e, mark as u64);
        let written = write_survey(&survey.header, &survey.storeys, &survey.members, 10_000);
        assert_eq!(written.unwrap(), file);
        // A column does not read it.
        assert_eq!(determine(&file), common::EXAMPLE_SHEET.as_bytes());

        let m2 = with_number(&line('M', cases::M2), 19, mark);
        let file = changed(cases::example_lines(), 8, m2);
        let survey = read(&file, 1, 2).unwrap();
        assert_eq!(survey.members[0].annex_e, 0);
        assert_eq!(survey.members[1].annex_e, mark as u64);
        let written = write_survey(&survey.header, &survey.storeys, &survey.members, 10_000);
        assert_eq!(written.unwrap(), file);
        assert_eq!(determine(&file), cases::EXAMPLE_SHEET.as_bytes());
    }
}

/// A file without the field, in either form; so is one with a field more.
#[test]
fn files_without_the_mark() {
    let cut = |text: &str| text[..text.len() - 9].to_string() + "\n";
    let more = |text: &str| text.replace('\n', "       0\n");
    let of = |lines, place, text| refused(read(&changed(lines, place, text), 10, 320));
    for (place, text) in [(3, common::M1), (4, common::M2)] {
        let text = line('M', text);
        let lines = common::example_lines;
        assert_eq!(of(lines(), place, cut(&text)), (1, place as u64));
        assert_eq!(of(lines(), place, more(&text)), (1, place as u64));
    }
    for (place, text) in [(3, cases::M1), (8, cases::M2)] {
        let text = line('M', text);
        let lines = cases::example_lines;
        assert_eq!(of(lines(), place, cut(&text)), (1, place as u64));
        assert_eq!(of(lines(), place, more(&text)), (1, place as u64));
    }
}

/// The last field of its line: after every other, before 4 and 5.
#[test]
fn refusals_of_the_mark() {
    let old = |text: String| refused(read(&changed(common::example_lines(), 4, text), 10, 320));
    let in_cases = |text: String| refused(read(&changed(cases::example_lines(), 8, text), 10, 320));
    let m2 = line('M', common::M2);
    let case_m2 = line('M', cases::M2);
    for value in [2, 3, 9_999_999] {
        assert_eq!(old(with_number(&m2, 27, value)), (3, 4));
        assert_eq!(in_cases(with_number(&case_m2, 19, value)), (3, 8));
    }
    for raw in ["      -1", "      01", "       x", "        ", "      1 "] {
        assert_eq!(old(with_field(&m2, 27, raw)), (2, 4));
        assert_eq!(in_cases(with_field(&case_m2, 19, raw)), (2, 8));
    }
    let two_faults = with_number(&with_field(&m2, 26, "      -1"), 27, 2);
    assert_eq!(old(two_faults), (2, 4));
    let two_faults = with_field(&with_number(&m2, 23, 0), 27, "      -1");
    assert_eq!(old(two_faults), (3, 4));
    let two_faults = with_field(&with_number(&case_m2, 17, 5), 19, "      -1");
    assert_eq!(in_cases(two_faults), (3, 8));
    let wide = |text: &str| with_number(text, 3, 301);
    assert_eq!(old(with_number(&wide(&m2), 27, 2)), (3, 4));
    assert_eq!(in_cases(with_number(&wide(&case_m2), 19, 2)), (3, 8));
    assert_eq!(
        old(with_field(&with_number(&m2, 1, 1), 27, "      -1")),
        (2, 4)
    );
    // In records as any other field, whether read or not.
    for annex_e in [2, u64::MAX] {
        let m = Member {
            annex_e,
            short_side: 301,
            ..member()
        };
        assert_eq!(refused(judge_member(100, false, &m)), (3, 0));
    }
}
