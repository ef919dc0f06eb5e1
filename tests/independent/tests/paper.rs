//! The worked example, edges (a) to (j), and the rules around them, in the old
//! form.

mod common;

use common::old::{
    judge_building, judge_member, judge_storey, read, report, Header, Member, Storey,
};
use common::*;
use independent::determine;

fn limits(k: u64, m: &Member) -> (u8, u64, u64) {
    let f = judge_member(k, false, m).unwrap();
    (f.class, f.m_limit, f.rotation_limit)
}

fn class(k: u64, m: &Member) -> u8 {
    judge_member(k, false, m).unwrap().class
}

/// So many copies of a member, numbered from 1.
fn copies(m: &Member, count: u64) -> Vec<Member> {
    (1..=count).map(|number| Member { number, ..*m }).collect()
}

#[test]
fn worked_example() {
    let file = example_file();
    assert_eq!(determine(&file), EXAMPLE_SHEET.as_bytes());

    let survey = read(&file, 1, 2).unwrap();
    assert_eq!(survey.header, header());
    assert_eq!(survey.storeys, [storey()]);
    assert_eq!(survey.members, [member(), second_member()]);
}

#[test]
fn worked_example_in_calls() {
    let members = [member(), second_member()];
    let f = judge_storey(100, &storey(), &members).unwrap();
    assert_eq!((f.number, f.sum, f.c, f.p, f.w), (1, 75_000, 2, 200, 1_000));
    assert!(f.risky && !f.meets_wall_share);
    let b = judge_building(&header(), &[storey()], &members).unwrap();
    assert!(b.risky && !b.tilt_above);
    assert_eq!((b.place, b.case), (1, 1));
    let m = judge_member(100, false, &member()).unwrap();
    assert_eq!((m.class, m.n_d, m.n, m.m), (2, 35_000, 35_000, 300_000));
}

#[test]
fn edge_a() {
    assert_eq!(limits(100, &detailed()), (1, 450_000, 27_500));
}

#[test]
fn edge_b() {
    let m = Member {
        s: 1_000,
        b_k: 1_000,
        a_sh: 3_250,
        ..member()
    };
    assert_eq!(limits(100, &m), (2, 318_750, 15_625));
}

#[test]
fn edge_c() {
    let m = Member {
        s: 1_000,
        b_k: 1_000,
        a_sh: 3_250,
        strengthened: 1,
        ..member()
    };
    assert_eq!(limits(100, &m), (2, 239_062, 11_718));
}

#[test]
fn edge_d() {
    let m = Member {
        v_e: 111,
        n_k: 7_650,
        ..member()
    };
    assert_eq!(limits(100, &m), (3, 100_000, 2_500));
    let m = Member {
        strengthened: 1,
        ..m
    };
    assert_eq!(limits(100, &m), (3, 100_000, 2_500));
}

#[test]
fn edge_e() {
    let m = Member {
        n_k: 17_500,
        v_e: 110_000,
        v_r: 200_000,
        ..wall()
    };
    assert_eq!(limits(100, &m), (4, 437_500, 18_750));
    let m = Member {
        strengthened: 1,
        ..m
    };
    assert_eq!(limits(100, &m), (4, 437_500, 18_750));
}

#[test]
fn edge_f() {
    assert_eq!(
        class(
            90,
            &Member {
                v_e: 63,
                ..detailed()
            }
        ),
        1
    );
    assert_eq!(
        class(
            90,
            &Member {
                v_e: 64,
                ..detailed()
            }
        ),
        2
    );
    // Not detailed: B to 99, then C.
    assert_eq!(
        class(
            90,
            &Member {
                v_e: 63,
                ..member()
            }
        ),
        2
    );
    assert_eq!(
        class(
            90,
            &Member {
                v_e: 64,
                ..member()
            }
        ),
        2
    );
    assert_eq!(
        class(
            90,
            &Member {
                v_e: 99,
                ..member()
            }
        ),
        2
    );
    assert_eq!(
        class(
            90,
            &Member {
                v_e: 100,
                ..member()
            }
        ),
        3
    );
    assert_eq!(
        class(
            90,
            &Member {
                v_e: 100,
                ..detailed()
            }
        ),
        2
    );
}

#[test]
fn edge_g() {
    let with_v = |v| {
        let members = [Member { v, ..member() }, second_member()];
        let f = judge_storey(100, &storey(), &members).unwrap();
        assert_eq!((f.sum, f.c, f.p, f.w), (75_000, 2, v, 1_000));
        f.risky
    };
    assert!(!with_v(175));
    assert!(with_v(176));
}

#[test]
fn edge_h() {
    // n_D equals N_D here, and n equals N_K.
    let one = Member {
        a_c: 1_000_000,
        n_k: 35_000,
        v: 0,
        ..member()
    };
    let with_n_d = |n_d| {
        let members = [
            Member { n_d, ..one },
            Member {
                number: 2,
                n_d: 65_000,
                m_e: 0,
                ..one
            },
        ];
        let f = judge_storey(100, &storey(), &members).unwrap();
        assert_eq!((f.sum as i64, f.p), (65_000 + n_d, 0));
        f.risky
    };
    assert!(!with_n_d(65_000));
    assert!(with_n_d(65_001));
}

#[test]
fn edge_i() {
    let with_count = |count| {
        let mut members = copies(&Member { m_e: 0, ..member() }, count);
        members[3].damage_kind = 4;
        let s = Storey {
            member_count: count,
            ..storey()
        };
        judge_storey(100, &s, &members).unwrap().risky
    };
    assert!(with_count(20));
    assert!(!with_count(21));
}

#[test]
fn edge_j() {
    let members = copies(&Member { m_e: 0, ..member() }, 2);
    let with_tilts = |tilt_1, tilt_2| {
        let h = Header {
            tilt_1,
            tilt_2,
            ..header()
        };
        let f = judge_building(&h, &[storey()], &members).unwrap();
        assert_eq!(f.tilt_above, f.risky);
        assert_eq!((f.place, f.case), (0, 0));
        f.risky
    };
    assert!(!with_tilts(25_000, 25_000));
    assert!(with_tilts(25_001, 0));
    assert!(with_tilts(0, 25_001));
}

#[test]
fn damage_kinds() {
    let risky = |count, kinds: &[u64]| {
        let mut members = copies(&Member { m_e: 0, ..member() }, count);
        for (m, kind) in members.iter_mut().zip(kinds) {
            m.damage_kind = *kind;
        }
        let s = Storey {
            member_count: count,
            ..storey()
        };
        judge_storey(100, &s, &members).unwrap().risky
    };
    assert!(risky(5, &[3]));
    assert!(!risky(6, &[3]));
    assert!(risky(4, &[2]));
    assert!(!risky(5, &[2]));
    assert!(risky(2, &[1]));
    assert!(!risky(3, &[1]));
    assert!(risky(20, &[1; 7]));
    assert!(!risky(21, &[1; 7]));
    assert!(risky(9, &[2, 3]));
    assert!(!risky(10, &[2, 3]));
    assert!(!risky(3, &[0]));
}

#[test]
fn detailed_edges() {
    // 100 x 100 x 600 = 6 x 100 x 100 x 100.
    let m = Member {
        s: 100,
        hooks: 1,
        a_sh: 100,
        f_yw: 600,
        f_cm: 100,
        b_k: 100,
        ..member()
    };
    assert_eq!(class(100, &m), 1);
    assert_eq!(class(100, &Member { f_yw: 599, ..m }), 2);
    assert_eq!(class(100, &Member { f_cm: 101, ..m }), 2);
    assert_eq!(class(100, &Member { hooks: 0, ..m }), 2);
    assert_eq!(
        class(
            100,
            &Member {
                s: 101,
                f_yw: 2_000,
                ..m
            }
        ),
        2
    );
    // Weaker concrete eases the hoop condition.
    assert_eq!(
        class(
            100,
            &Member {
                f_yw: 599,
                f_cm: 99,
                ..m
            }
        ),
        1
    );
}

#[test]
fn wall_edges() {
    assert_eq!(class(100, &wall()), 4);
    assert_eq!(
        class(
            100,
            &Member {
                v_r: 90_000,
                ..wall()
            }
        ),
        5
    );
    assert_eq!(
        class(
            90,
            &Member {
                v_r: 100_000,
                ..wall()
            }
        ),
        5
    );
    assert_eq!(
        class(
            90,
            &Member {
                v_r: 100_001,
                ..wall()
            }
        ),
        4
    );
    assert_eq!(
        class(
            100,
            &Member {
                h_w: 1_999,
                ..wall()
            }
        ),
        5
    );
    // 999 is below 5 x 200: a column.
    assert_eq!(
        class(
            100,
            &Member {
                long_side: 999,
                ..wall()
            }
        ),
        2
    );
    // Without a boundary zone wall B is milder than wall A.
    let plain = Member {
        boundary_zone: 0,
        ..wall()
    };
    assert_eq!(limits(100, &plain), (4, 450_000, 15_000));
    assert_eq!(
        limits(
            100,
            &Member {
                v_r: 90_000,
                ..plain
            }
        ),
        (5, 500_000, 20_000)
    );
}

#[test]
fn ratios_round_to_the_unfavourable_side() {
    let of = |m: &Member| judge_member(100, false, m).unwrap();
    // 100,000,000 x 1 / 9,000,000 is 11 1/9, and 33 1/3 for 3.
    let light = Member {
        n_k: 1,
        n_d: 3,
        ..member()
    };
    assert_eq!((of(&light).n, of(&light).n_d), (12, 34));
    let tension = Member {
        n_k: 0,
        n_d: -1,
        ..member()
    };
    assert_eq!((of(&tension).n, of(&tension).n_d), (0, 0));
    let tension = Member {
        n_k: -999_999,
        n_d: -999_999,
        ..member()
    };
    assert_eq!((of(&tension).n, of(&tension).n_d), (0, 0));
    // 10,000,000 x 1 / (100 x 300,000) is 1/3.
    let with_moments = |m_e, m_p| {
        let m = Member {
            m_e,
            m_p,
            ..member()
        };
        of(&m).m
    };
    assert_eq!(with_moments(1, 300_000), 1);
    assert_eq!(with_moments(0, 300_000), 0);
    assert_eq!(with_moments(3, 300_000), 1);
    assert_eq!(with_moments(4, 300_000), 2);
    // Caps.
    assert_eq!(with_moments(9_999_998, 100_000), 9_999_998);
    assert_eq!(with_moments(9_999_999, 100_000), 9_999_999);
    assert_eq!(with_moments(9_999_999, 99_999), 9_999_999);
    assert_eq!(with_moments(9_999_999, 1), 9_999_999);
    let small = Member {
        f_cm: 1,
        a_c: 1,
        n_d: 9_999_999,
        n_k: 9_999_999,
        ..member()
    };
    assert_eq!((of(&small).n, of(&small).n_d), (9_999_999, 9_999_999));
    let below = Member {
        f_cm: 1_000,
        a_c: 100_000,
        n_d: 9_999_998,
        n_k: 9_999_997,
        ..member()
    };
    assert_eq!((of(&below).n, of(&below).n_d), (9_999_997, 9_999_998));
    // ρ goes down: 500.9 is 500, and 501 lies one step up the table.
    let at_500 = Member {
        s: 1_000,
        b_k: 10_000,
        a_sh: 5_009,
        n_k: 0,
        ..member()
    };
    assert_eq!(limits(100, &at_500), (2, 250_000, 12_500));
    let at_501 = Member {
        a_sh: 5_010,
        ..at_500
    };
    assert_eq!(limits(100, &at_501), (2, 250_063, 12_504));
    // v goes up: 90,000.5 is 90,001.
    let wall_b = Member {
        d: 10_000,
        h_w: 1,
        v_e: 180_001,
        v_r: 999_999,
        ..wall()
    };
    assert_eq!(limits(100, &wall_b), (5, 499_993, 19_999));
    let at_the_row = Member {
        v_e: 180_000,
        ..wall_b
    };
    assert_eq!(limits(100, &at_the_row), (5, 500_000, 20_000));
}

/// Limits of m and of rotation where n or v lies one step past a row, less than
/// a step of the former grid.
#[test]
fn limits_follow_the_finer_ratios() {
    // n = N_K: 600,000 - 6 and 40,000 - 1/2.
    let column_a = Member {
        a_c: 1_000_000,
        n_k: 10_001,
        ..detailed()
    };
    assert_eq!(limits(100, &column_a), (1, 599_994, 39_999));
    // 3/4 of them: 449,995.5 and 29,999.625.
    let jacketed = Member {
        strengthened: 1,
        ..column_a
    };
    assert_eq!(limits(100, &jacketed), (1, 449_995, 29_999));
    // A tenth of 40,000 - 1/2.
    let damaged = Member {
        factor: 10,
        ..column_a
    };
    assert_eq!(limits(100, &damaged), (1, 599_994, 3_999));
    // 5,000 - 1/6.
    let column_c = Member {
        a_c: 1_000_000,
        n_k: 70_001,
        v_e: 111,
        ..member()
    };
    assert_eq!(limits(100, &column_c), (3, 100_000, 4_999));
    // 700,000 - 20 and 30,000 - 2/3.
    let by_n = Member {
        n_k: 10_001,
        ..wall()
    };
    assert_eq!(limits(100, &by_n), (4, 699_980, 29_999));
    // 700,000 - 7.5 and 30,000 - 3/8.
    let by_v = Member {
        v_e: 90_001,
        v_r: 90_002,
        ..wall()
    };
    assert_eq!(limits(100, &by_v), (4, 699_992, 29_999));
}

#[test]
fn limits_hold_at_equality() {
    let over = |m: &Member| judge_member(100, false, m).unwrap().over;
    // m = M_e; limits 259,090 and 12,500.
    let m = Member {
        m_p: 100_000,
        m_e: 259_090,
        rotation: 12_500,
        ..member()
    };
    assert!(!over(&m));
    assert!(over(&Member { m_e: 259_091, ..m }));
    assert!(over(&Member {
        rotation: 12_501,
        ..m
    }));
    // Edge (c): limits 239,062 and 11,718.
    let m = Member {
        s: 1_000,
        b_k: 1_000,
        a_sh: 3_250,
        strengthened: 1,
        m_e: 239_062,
        rotation: 11_718,
        ..m
    };
    assert!(!over(&m));
    assert!(over(&Member { m_e: 239_063, ..m }));
    assert!(over(&Member {
        rotation: 11_719,
        ..m
    }));
    let m = Member {
        factor: 0,
        rotation: 0,
        ..m
    };
    assert!(!over(&m));
    assert!(over(&Member { rotation: 1, ..m }));
}

#[test]
fn m_test_dropped() {
    let w = Member {
        m_p: 1,
        m_e: 9_999_999,
        drift: 7_499,
        ..wall()
    };
    let over = |share, m: &Member| judge_member(100, share, m).unwrap().over;
    assert!(!over(true, &w));
    assert!(over(false, &w));
    assert!(over(true, &Member { drift: 7_500, ..w }));
    assert!(over(true, &Member { v_r: 90_000, ..w }));
    assert!(over(
        true,
        &Member {
            rotation: 30_001,
            ..w
        }
    ));
    // Also a wall of class B, by its height.
    assert!(!over(true, &Member { h_w: 1, ..w }));
    // Not a column.
    assert!(over(
        true,
        &Member {
            long_side: 999,
            ..w
        }
    ));

    let of_storey = |v| {
        let members = [
            Member { v, ..w },
            Member {
                number: 2,
                m_e: 0,
                ..member()
            },
        ];
        let f = judge_storey(100, &storey(), &members).unwrap();
        (f.meets_wall_share, f.p)
    };
    assert_eq!(of_storey(400), (true, 0));
    assert_eq!(of_storey(399), (false, 399));
}

#[test]
fn two_risky_storeys_of_three() {
    let h = Header {
        storey_count: 3,
        ..header()
    };
    let storeys: Vec<Storey> = (1..=3)
        .map(|number| Storey { number, ..storey() })
        .collect();
    let sound = Member { m_e: 0, ..member() };
    let members = [
        member(),
        second_member(),
        sound,
        Member { number: 2, ..sound },
        member(),
        second_member(),
    ];
    let f = judge_building(&h, &storeys, &members).unwrap();
    assert_eq!((f.place, f.case), (1, 1));
    let sheet = report(&h, &storeys, &members, usize::MAX).unwrap();
    let tags: Vec<u8> = sheet
        .split(|&b| b == b'\n')
        .filter_map(|l| l.first().copied())
        .collect();
    assert_eq!(tags, b"MMSMMSMMSB");
}

/// 200 members over, each with the largest V: the largest P there is.
#[test]
fn the_largest_p_is_judged_and_printed() {
    let largest = Member {
        v: 9_999_999,
        ..member()
    };
    let members = copies(&largest, 200);
    for m in &members {
        assert!(judge_member(100, false, m).unwrap().over);
    }
    let s = Storey {
        member_count: 200,
        ..storey()
    };
    let f = judge_storey(100, &s, &members).unwrap();
    assert_eq!(
        (f.number, f.sum, f.c, f.p, f.w),
        (1, 7_000_000, 200, 1_999_999_800, 1_000)
    );
    assert!(f.risky && !f.meets_wall_share);
    let b = judge_building(&header(), &[s], &members).unwrap();
    assert!(b.risky && !b.tilt_above);
    assert_eq!((b.place, b.case), (1, 1));

    let mut expected = String::new();
    for number in 1..=200 {
        expected.push_str(&format!(
            "M{number:>12}           2      300000      259090        9000       12500           1\n"
        ));
    }
    expected.push_str(
        "S           1     7000000         200  1999999800        1000           1\n\
         B           0           1\n",
    );
    let sheet = report(&header(), &[s], &members, expected.len()).unwrap();
    assert_eq!(sheet, expected.as_bytes());

    // The same from a file.
    let mut file = line('B', B) + &line('S', "1 1000 200");
    for number in 1..=200 {
        let text = with_number(&line('M', M1), 1, number);
        file.push_str(&with_number(&text, 24, 9_999_999));
    }
    assert_eq!(determine(file.as_bytes()), expected.as_bytes());

    // Nothing larger gets as far as P: one more of V or of members is 3.
    let number_of = |s: &Storey, members: &[Member]| {
        let storey_call = judge_storey(100, s, members).unwrap_err();
        let building_call = judge_building(&header(), &[*s], members).unwrap_err();
        let report_call = report(&header(), &[*s], members, usize::MAX).unwrap_err();
        assert_eq!(storey_call, building_call);
        assert_eq!(storey_call, report_call);
        storey_call.number
    };
    let mut more_shear = members.clone();
    more_shear[199].v = 10_000_000;
    assert_eq!(number_of(&s, &more_shear), 3);
    let one_more = Storey {
        member_count: 201,
        ..s
    };
    assert_eq!(number_of(&one_more, &copies(&largest, 201)), 3);
}

/// 200 members at the caps: the largest m and the largest Σ there are.
#[test]
fn the_largest_ratios_are_printed() {
    let largest = Member {
        f_cm: 1,
        a_c: 1,
        n_d: 9_999_999,
        n_k: 9_999_999,
        m_e: 9_999_999,
        m_p: 1,
        ..member()
    };
    let members = copies(&largest, 200);
    let s = Storey {
        member_count: 200,
        ..storey()
    };
    let mut expected = String::new();
    for number in 1..=200 {
        expected.push_str(&format!(
            "M{number:>12}           2     9999999      100000        9000           0           1\n"
        ));
    }
    expected.push_str(
        "S           1  1999999800         200       40000        1000           1\n\
         B           0           1\n",
    );
    let sheet = report(&header(), &[s], &members, expected.len()).unwrap();
    assert_eq!(sheet, expected.as_bytes());
}

/// Σ adds the ratios as rounded: 33 1/3 of each member counts 34.
#[test]
fn sigma_adds_rounded_ratios() {
    let members = copies(&Member { n_d: 3, ..member() }, 3);
    let s = Storey {
        member_count: 3,
        ..storey()
    };
    assert_eq!(judge_storey(100, &s, &members).unwrap().sum, 102);
}

#[test]
fn order_of_members_changes_nothing() {
    let jacketed = Member {
        number: 2,
        strengthened: 1,
        ..member()
    };
    let one = judge_storey(100, &storey(), &[member(), jacketed]).unwrap();
    let other = judge_storey(100, &storey(), &[jacketed, member()]).unwrap();
    assert_eq!(one, other);
}
