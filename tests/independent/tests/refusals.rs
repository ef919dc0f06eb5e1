//! Each refusal and the order among them, in the old form.

mod common;

use common::old::{
    judge_building, judge_member, judge_storey, read, report, write_survey, Header, Member, Storey,
};
use common::*;
use independent::determine;

fn reading(lines: &[String]) -> (u8, u64) {
    refused(read(lines.concat().as_bytes(), 10, 320))
}

/// The example with one line changed.
fn with_line(place: usize, text: String) -> Vec<String> {
    let mut lines = example_lines();
    lines[place - 1] = text;
    lines
}

#[test]
fn one_when_reading() {
    let lines = example_lines();
    assert_eq!(refused(read(b"", 10, 320)), (1, 1));
    for present in 1..4 {
        assert_eq!(reading(&lines[..present]), (1, present as u64 + 1));
    }
    let file = example_file();
    for cut in 0..file.len() {
        let line = 1 + file[..cut].iter().filter(|&&b| b == b'\n').count() as u64;
        assert_eq!(refused(read(&file[..cut], 10, 320)), (1, line));
    }
    for (place, text) in lines.iter().enumerate() {
        let place = place + 1;
        let tag = &text[..1];
        for other in ["B", "S", "M", "E", "b", " ", "\n"] {
            if other != tag {
                let changed = format!("{}{}", other, &text[1..]);
                assert_eq!(reading(&with_line(place, changed)), (1, place as u64));
            }
        }
        // LF inside a line, a line too long, CR before LF.
        assert_eq!(
            reading(&with_line(place, with_field(text, 2, "     \n 1"))),
            (1, place as u64)
        );
        assert_eq!(
            reading(&with_line(place, text.replace('\n', " \n"))),
            (1, place as u64)
        );
        assert_eq!(
            reading(&with_line(place, text.replace('\n', "\r\n"))),
            (1, place as u64)
        );
        assert_eq!(
            reading(&with_line(place, text.replace('\n', "\r"))),
            (1, place as u64)
        );
    }
}

#[test]
fn two_when_reading() {
    let lines = example_lines();
    for (place, text) in lines.iter().enumerate() {
        let fields = (text.len() - 2) / 8;
        for field in 1..=fields {
            for raw in [
                "        ",
                "12345678",
                "      01",
                "      +1",
                "      1 ",
                "     1 1",
                "      -0",
                "     -01",
                "     - 1",
                "       -",
                "     1.0",
                "\t      1",
            ] {
                let changed = with_line(place + 1, with_field(text, field, raw));
                assert_eq!(
                    reading(&changed),
                    (2, place as u64 + 1),
                    "{} {:?}",
                    field,
                    raw
                );
            }
            let changed = with_line(place + 1, with_field(text, field, "      -1"));
            if text.starts_with('M') && (field == 18 || field == 19) {
                assert!(read(changed.concat().as_bytes(), 10, 320).is_ok());
            } else {
                assert_eq!(reading(&changed), (2, place as u64 + 1));
            }
        }
    }
}

#[test]
fn three_when_reading() {
    let bad_b = [
        (1, vec![0, 89, 91, 99, 101]),
        (2, vec![0, 100_000]),
        (3, vec![0, 100]),
        (6, vec![0, 4]),
    ];
    for (field, values) in bad_b {
        for value in values {
            let changed = with_line(1, with_number(&line('B', B), field, value));
            assert_eq!(reading(&changed), (3, 1));
        }
    }
    let bad_s = [(1, vec![0]), (2, vec![0]), (3, vec![0, 201])];
    for (field, values) in bad_s {
        for value in values {
            let changed = with_line(2, with_number(&line('S', S), field, value));
            assert_eq!(reading(&changed), (3, 2));
        }
    }
    let bad_m = [
        (1, vec![0]),
        (2, vec![0, 100_000]),
        (3, vec![0, 100_000]),
        (4, vec![0]),
        (5, vec![0, 10_000]),
        (6, vec![0, 10_000]),
        (7, vec![0, 100_000]),
        (8, vec![0, 100_000]),
        (9, vec![0, 100_000]),
        (10, vec![0, 10_000]),
        (11, vec![0, 100_000]),
        (12, vec![100_000]),
        (13, vec![2]),
        (14, vec![2]),
        (15, vec![2]),
        (16, vec![101]),
        (17, vec![5]),
        (21, vec![0]),
        (23, vec![0]),
        (27, vec![2]),
    ];
    for (field, values) in bad_m {
        for value in values {
            let changed = with_line(4, with_number(&line('M', M2), field, value));
            assert_eq!(reading(&changed), (3, 4), "{} {}", field, value);
        }
    }
}

#[test]
fn ends_of_ranges_are_read() {
    let good_b = [(1, vec![90, 100]), (2, vec![1, 30_000]), (3, vec![1, 10])];
    for (field, values) in good_b {
        for value in values {
            let changed = with_line(1, with_number(&line('B', B), field, value)).concat();
            assert!(read(changed.as_bytes(), 1, 2).is_ok());
        }
    }
    let good_m = [
        (1, 1, 9_999_999),
        (2, 300, 99_999),
        (3, 1, 300),
        (4, 1, 9_999_999),
        (5, 1, 9_999),
        (6, 1, 9_999),
        (7, 1, 99_999),
        (8, 1, 99_999),
        (9, 1, 99_999),
        (10, 1, 9_999),
        (11, 1, 99_999),
        (12, 0, 99_999),
        (13, 0, 1),
        (14, 0, 1),
        (15, 0, 1),
        (16, 0, 100),
        (17, 0, 4),
        (18, -999_999, 9_999_999),
        (19, -999_999, 9_999_999),
        (20, 0, 9_999_999),
        (21, 1, 9_999_999),
        (22, 0, 9_999_999),
        (23, 1, 9_999_999),
        (24, 0, 9_999_999),
        (25, 0, 9_999_999),
        (26, 0, 9_999_999),
        (27, 0, 1),
    ];
    let second = M2.replacen('2', "77", 1);
    for (field, least, most) in good_m {
        for value in [least, most] {
            let mut lines = with_line(3, with_number(&line('M', M1), field, value));
            lines[3] = line('M', &second);
            assert!(
                read(lines.concat().as_bytes(), 1, 2).is_ok(),
                "{} {}",
                field,
                value
            );
        }
    }
}

#[test]
fn four_to_seven_when_reading() {
    assert_eq!(
        reading(&with_line(3, with_number(&line('M', M1), 3, 301))),
        (4, 3)
    );
    assert_eq!(reading(&with_line(4, line('M', M1))), (5, 4));
    let two_storeys = [
        line('B', "100 9000 3 0 0 2"),
        line('S', "7 1000 1"),
        line('M', M1),
        line('S', "7 1000 1"),
        line('M', M1),
    ];
    assert_eq!(reading(&two_storeys), (5, 4));
    // The same member number in two storeys is no repetition.
    let mut apart = two_storeys.clone();
    apart[3] = line('S', "8 1000 1");
    assert!(read(apart.concat().as_bytes(), 2, 2).is_ok());

    for after in ["\n", " ", "M", &line('M', M1), "B\n"] {
        let mut lines = example_lines();
        lines.push(after.to_string());
        assert_eq!(reading(&lines), (6, 5));
    }
    assert_eq!(
        reading(&with_line(1, line('B', "100 30001 3 0 0 1"))),
        (7, 1)
    );
    assert_eq!(
        reading(&with_line(1, line('B', "100 9000 11 0 0 1"))),
        (7, 1)
    );
}

#[test]
fn eight_when_reading() {
    let file = example_file();
    assert_eq!(refused(read(&file, 0, 2)), (8, 2));
    assert_eq!(refused(read(&file, 1, 0)), (8, 3));
    assert_eq!(refused(read(&file, 1, 1)), (8, 4));
    assert!(read(&file, 1, 2).is_ok());
}

#[test]
fn order_within_a_line() {
    let m2 = line('M', M2);
    // 1 before 8.
    let absent = example_lines()[..3].concat();
    assert_eq!(refused(read(absent.as_bytes(), 1, 1)), (1, 4));
    let wrong = with_line(4, format!("S{}", &m2[1..])).concat();
    assert_eq!(refused(read(wrong.as_bytes(), 1, 1)), (1, 4));
    // 8 before 2 and 3.
    let bad = with_line(4, with_field(&m2, 1, "      00")).concat();
    assert_eq!(refused(read(bad.as_bytes(), 1, 1)), (8, 4));
    assert_eq!(refused(read(bad.as_bytes(), 1, 2)), (2, 4));
    // Fields from the left, each 2 then 3.
    let both = with_field(&with_number(&m2, 5, 0), 6, "      -1");
    assert_eq!(reading(&with_line(4, both)), (3, 4));
    let both = with_number(&with_field(&m2, 5, "      -1"), 6, 0);
    assert_eq!(reading(&with_line(4, both)), (2, 4));
    // 3 before 4, 4 before 5.
    let both = with_number(&with_number(&m2, 3, 301), 26, 0);
    assert_eq!(reading(&with_line(4, with_number(&both, 23, 0))), (3, 4));
    assert_eq!(reading(&with_line(4, with_number(&both, 1, 1))), (4, 4));
    // 3 before 7, though the field stands further right.
    assert_eq!(
        reading(&with_line(1, line('B', "100 30001 3 0 0 4"))),
        (3, 1)
    );
    assert_eq!(
        reading(&with_line(1, line('B', "100 30001 3 0 -1 1"))),
        (2, 1)
    );
}

#[test]
fn earliest_line_wins() {
    let mut lines = with_line(3, with_number(&line('M', M1), 3, 301));
    lines[3] = line('S', S);
    assert_eq!(reading(&lines), (4, 3));
    lines[1] = line('S', "1 0 2");
    assert_eq!(reading(&lines), (3, 2));
    lines[0] = line('B', "100 30001 3 0 0 1");
    assert_eq!(reading(&lines), (7, 1));
}

#[test]
fn the_program_refuses() {
    let e = |number: u8, line: u64| format!("E{:>12}{:>12}\n", number, line).into_bytes();
    assert_eq!(determine(b""), e(1, 1));
    assert_eq!(determine(&vec![b' '; 65_536]), e(1, 1));
    assert_eq!(determine(&vec![b' '; 65_537]), e(8, 0));
    let mut file = example_file();
    file.resize(65_536, b'\n');
    assert_eq!(determine(&file), e(6, 5));
    file.push(b'\n');
    assert_eq!(determine(&file), e(8, 0));
}

// ---- calls on records ----

fn pair() -> [Member; 2] {
    [member(), second_member()]
}

#[test]
fn records_refused_by_one() {
    let short = [member()];
    assert_eq!(refused(judge_storey(100, &storey(), &short)), (1, 0));
    assert_eq!(refused(judge_storey(100, &storey(), &[])), (1, 0));
    let of = |h: &Header, storeys: &[Storey], members: &[Member]| {
        let from_building = refused(judge_building(h, storeys, members));
        assert_eq!(from_building, refused(report(h, storeys, members, 0)));
        assert_eq!(from_building, refused(write_survey(h, storeys, members, 0)));
        from_building
    };
    assert_eq!(of(&header(), &[], &pair()), (1, 0));
    assert_eq!(of(&header(), &[storey(), storey()], &pair()), (1, 0));
    assert_eq!(of(&header(), &[storey()], &short), (1, 0));
    // The total is not cut to 64 bits.
    let h = Header {
        storey_count: 2,
        ..header()
    };
    let huge = [
        Storey {
            member_count: u64::MAX,
            ..storey()
        },
        Storey {
            number: 2,
            member_count: 3,
            ..storey()
        },
    ];
    assert_eq!(of(&h, &huge, &pair()), (1, 0));
}

#[test]
fn records_refused_in_survey_order() {
    let h = Header {
        storey_count: 2,
        ..header()
    };
    let s1 = Storey {
        member_count: 1,
        ..storey()
    };
    let s2 = Storey { number: 2, ..s1 };
    let of = |h: &Header, storeys: &[Storey], members: &[Member]| {
        let from_building = refused(judge_building(h, storeys, members));
        assert_eq!(from_building, refused(report(h, storeys, members, 0)));
        assert_eq!(from_building, refused(write_survey(h, storeys, members, 0)));
        from_building.0
    };
    let bad_side = Member {
        short_side: 301,
        ..member()
    };
    let bad_range = Member { m_p: 0, ..member() };
    // Header: 3 before 7, both before all else.
    let tall = Header {
        height: 30_001,
        ..h
    };
    assert_eq!(of(&tall, &[s1, s1], &[bad_side, bad_range]), 7);
    let worse = Header {
        tilt_2: u64::MAX,
        ..tall
    };
    assert_eq!(of(&worse, &[s1, s1], &[bad_side, bad_range]), 3);
    assert_eq!(of(&Header { knowledge: 95, ..h }, &[s1, s2], &pair()), 3);
    // 1 before the header.
    assert_eq!(of(&worse, &[s1, s1], &[bad_side]), 1);
    // The first storey's member before the second storey.
    assert_eq!(of(&h, &[s1, s1], &[bad_side, bad_range]), 4);
    // The second storey's number before its member.
    assert_eq!(of(&h, &[s1, s1], &[member(), bad_range]), 5);
    assert_eq!(
        of(&h, &[s1, Storey { shear: 0, ..s1 }], &[member(), bad_side]),
        3
    );
    assert_eq!(of(&h, &[s1, s2], &[member(), bad_range]), 3);
    // 3 before 4 before 5 in one member.
    let both = Member {
        short_side: 301,
        m_p: 0,
        ..member()
    };
    assert_eq!(of(&header(), &[storey()], &[member(), both]), 3);
    assert_eq!(of(&header(), &[storey()], &[member(), bad_side]), 4);
    assert_eq!(of(&header(), &[storey()], &[member(), member()]), 5);
    // Counts whose total fits the rows but lie by themselves.
    let none = Storey {
        member_count: 0,
        ..s1
    };
    assert_eq!(
        of(
            &h,
            &[
                none,
                Storey {
                    member_count: 2,
                    ..s2
                }
            ],
            &pair()
        ),
        3
    );
    assert_eq!(
        of(
            &Header {
                storey_count: 0,
                ..header()
            },
            &[],
            &[]
        ),
        3
    );
    let many: Vec<Member> = (1..=201)
        .map(|number| Member { number, ..member() })
        .collect();
    assert_eq!(
        of(
            &header(),
            &[Storey {
                member_count: 201,
                ..storey()
            }],
            &many
        ),
        3
    );
    // n_s bounds the storey count.
    assert_eq!(
        of(
            &Header {
                storeys: 1,
                ..h
            },
            &[s1, s2],
            &pair()
        ),
        3
    );
    assert_eq!(
        of(
            &Header {
                storeys: 11,
                ..h
            },
            &[s1, s2],
            &pair()
        ),
        7
    );
}

#[test]
fn storey_call_order() {
    let bad = Storey {
        shear: 0,
        ..storey()
    };
    assert_eq!(refused(judge_storey(95, &bad, &[member()])), (1, 0));
    let bad_side = Member {
        short_side: 301,
        ..member()
    };
    assert_eq!(
        refused(judge_storey(95, &storey(), &[bad_side, bad_side])),
        (3, 0)
    );
    assert_eq!(refused(judge_storey(90, &bad, &pair())), (3, 0));
    assert_eq!(
        refused(judge_storey(90, &storey(), &[bad_side, bad_side])),
        (4, 0)
    );
    assert_eq!(
        refused(judge_storey(90, &storey(), &[member(), member()])),
        (5, 0)
    );
    let zero = Storey {
        member_count: 0,
        ..storey()
    };
    assert_eq!(refused(judge_storey(100, &zero, &[])), (3, 0));
}

#[test]
fn member_call_order() {
    let bad_side = Member {
        short_side: 301,
        ..member()
    };
    assert_eq!(refused(judge_member(95, false, &bad_side)), (3, 0));
    assert_eq!(refused(judge_member(100, true, &bad_side)), (4, 0));
    let both = Member {
        drift: 10_000_000,
        ..bad_side
    };
    assert_eq!(refused(judge_member(100, true, &both)), (3, 0));
}

#[test]
fn nine() {
    let sheet = EXAMPLE_SHEET.len();
    let of = |len| report(&header(), &[storey()], &pair(), len);
    assert_eq!(of(sheet).unwrap(), EXAMPLE_SHEET.as_bytes());
    assert_eq!(refused(of(sheet - 1)), (9, 0));
    assert_eq!(refused(of(0)), (9, 0));
}

#[test]
fn extreme_records_never_panic() {
    for value in [0, 1, u64::MAX, u64::MAX - 1, 1 << 63, u32::MAX as u64] {
        for force in [i64::MIN, -1, 0, 1, i64::MAX] {
            let m = Member {
                number: value,
                long_side: value,
                short_side: value,
                a_c: value,
                f_cm: value,
                f_ctm: value,
                f_yw: value,
                d: value,
                h_w: value,
                s: value,
                b_k: value,
                a_sh: value,
                hooks: value,
                boundary_zone: value,
                strengthened: value,
                factor: value,
                damage_kind: value,
                n_d: force,
                n_k: force,
                m_e: value,
                m_p: value,
                v_e: value,
                v_r: value,
                v: value,
                rotation: value,
                drift: value,
                annex_e: value,
            };
            let s = Storey {
                number: value,
                shear: value,
                member_count: value,
            };
            let h = Header {
                knowledge: value,
                height: value,
                storeys: value,
                tilt_1: value,
                tilt_2: value,
                storey_count: value,
            };
            for k in [value, 90, 100] {
                let _ = judge_member(k, true, &m);
                let _ = judge_storey(k, &s, &[m]);
            }
            let _ = judge_building(&h, &[s], &[m]);
            let _ = report(&h, &[s, s], &[m], value as usize);
            let _ = write_survey(&h, &[s, s], &[m], value as usize);
        }
    }
}
