//! Four load cases judged and printed.

mod common;

use common::cases::{block, header, members, storey, survey, EXAMPLE_SHEET};
use common::draw::Draw;
use common::{detailed, member, old, wall};
use independent::lines::{cases_of, CASE_FORM, OLD_FORM};
use independent::{
    determine, judge_building, judge_member, judge_storey, report, Fraction, Header, LoadCase,
    Member, Storey, StoreyFinding, Survey,
};

fn sheet(survey: &Survey) -> String {
    let bytes = report(&survey.header, &survey.storeys, &survey.members, usize::MAX);
    String::from_utf8(bytes.unwrap()).unwrap()
}

/// Case `i`, from 0, of a survey as a survey of the old form.
fn case_alone(survey: &Survey, i: usize) -> Survey {
    let mut alone = survey.clone();
    alone.header.form = OLD_FORM;
    for s in &mut alone.storeys {
        s.shears = [s.shears[i], 0, 0, 0];
    }
    for m in &mut alone.members {
        let none = LoadCase::default();
        m.cases = [m.cases[i], none, none, none];
    }
    alone
}

/// The 0.40 condition of a storey by case.
fn met(f: &StoreyFinding) -> [bool; 4] {
    [0, 1, 2, 3].map(|i| f.cases[i].meets_wall_share)
}

#[test]
fn the_example() {
    assert_eq!(sheet(&survey()), EXAMPLE_SHEET);
    assert_eq!(
        determine(&common::cases::example_file()),
        EXAMPLE_SHEET.as_bytes()
    );
}

#[test]
fn the_example_in_calls() {
    let f = judge_storey(100, CASE_FORM, &storey(), &members()).unwrap();
    assert_eq!((f.number, f.sum, f.c, f.risky), (1, 75_000, 2, true));
    let p: Vec<u64> = f.cases.iter().map(|c| c.p).collect();
    let w: Vec<u64> = f.cases.iter().map(|c| c.w).collect();
    let risky: Vec<bool> = f.cases.iter().map(|c| c.risky).collect();
    assert_eq!(p, [200, 0, 350, 71]);
    assert_eq!(w, [1_000, 500, 2_000, 400]);
    assert_eq!(risky, [true, false, false, true]);
    for case in &f.cases {
        assert_eq!(case.allowed_share, Fraction::new(7, 40));
        assert_eq!(case.by_share, case.risky);
        assert!(!case.by_one_over && !case.by_damage && !case.meets_wall_share);
    }
    let share = f.cases[2].allowed_share;
    assert_eq!((share.numerator(), share.denominator()), (7, 40));

    let b = judge_building(&header(), &[storey()], &members()).unwrap();
    assert!(b.risky && !b.tilt_above);
    assert_eq!((b.place, b.case), (1, 1));

    let [m, _] = members();
    let found = judge_member(100, CASE_FORM, [false; 4], &m).unwrap();
    let classes: Vec<u8> = found.iter().map(|f| f.class).collect();
    let n: Vec<u64> = found.iter().map(|f| f.n).collect();
    let over: Vec<bool> = found.iter().map(|f| f.over).collect();
    let m_above: Vec<bool> = found.iter().map(|f| f.m_above).collect();
    let rotation_above: Vec<bool> = found.iter().map(|f| f.rotation_above).collect();
    assert_eq!(classes, [2, 2, 3, 2]);
    assert_eq!(n, [35_000, 0, 85_000, 0]);
    assert_eq!(over, [true, false, true, true]);
    assert_eq!(m_above, [true, false, false, false]);
    assert_eq!(rotation_above, [false, false, true, true]);
    assert!(found.iter().all(|f| f.n_d == 35_000 && !f.m_dropped));
}

/// The sheet in four cases against the four sheets of one case each.
fn is_interleaved(survey: &Survey) {
    let whole = sheet(survey);
    let alone = [0, 1, 2, 3].map(|i| sheet(&case_alone(survey, i)));
    let mut alone_lines = alone.each_ref().map(|text| text.lines());
    let mut expected = String::new();
    for s in &survey.storeys {
        for (i, lines) in alone_lines.iter_mut().enumerate() {
            // Its members and its S line, the case after the tag.
            for _ in 0..=s.count {
                let line = lines.next().unwrap();
                let (tag, fields) = line.split_at(1);
                expected.push_str(&format!("{tag}{:>12}{fields}\n", i + 1));
            }
        }
    }
    // One B line: the tilt of each, Risky when one is.
    let last: Vec<&str> = alone_lines.iter_mut().map(|l| l.next().unwrap()).collect();
    let worst = last.iter().max().unwrap();
    assert!(last.iter().all(|line| line[..13] == worst[..13]));
    expected.push_str(&format!("{worst}\n"));
    assert!(alone_lines.iter_mut().all(|l| l.next().is_none()));
    assert_eq!(whole, expected);
}

#[test]
fn a_sheet_in_cases_is_four_sheets_interleaved() {
    is_interleaved(&survey());
    is_interleaved(&block(3, 4));
    let mut draw = Draw(20_210_005);
    let (mut buildings, mut storeys) = ([0, 0], [0, 0, 0]);
    for _ in 0..300 {
        let count = draw.within(1, 3);
        let mut drawn = Survey {
            header: Header {
                tilt_1: draw.within(0, 25_100),
                storey_count: count,
                ..header()
            },
            ..Survey::default()
        };
        for number in 1..=count {
            let members = draw.within(1, 6);
            drawn.storeys.push(Storey {
                number,
                shears: draw.shears(CASE_FORM),
                count: members,
            });
            for number in 1..=members {
                let m = draw.member(CASE_FORM, number);
                drawn.members.push(m);
            }
        }
        is_interleaved(&drawn);
        findings_by_case(&drawn, &mut buildings, &mut storeys);
    }
    assert!(buildings.iter().all(|&n| n > 10), "{buildings:?}");
    assert!(storeys.iter().all(|&n| n > 10), "{storeys:?}");
}

/// The calls on a survey in cases against those on its cases alone.
fn findings_by_case(survey: &Survey, buildings: &mut [u64; 2], storeys: &mut [u64; 3]) {
    let k = survey.header.knowledge;
    let mut first = 0;
    for s in &survey.storeys {
        let its = &survey.members[first..first + s.count as usize];
        let f = judge_storey(k, CASE_FORM, s, its).unwrap();
        let mut risky_cases = 0;
        for i in 0..4 {
            let one = Survey {
                header: survey.header,
                storeys: vec![*s],
                members: its.to_vec(),
            };
            let one = case_alone(&one, i);
            let alone = judge_storey(k, OLD_FORM, &one.storeys[0], &one.members).unwrap();
            assert_eq!((alone.sum, alone.c), (f.sum, f.c));
            assert_eq!(alone.cases, [f.cases[i]]);
            risky_cases += alone.risky as usize;
            for (m, single) in its.iter().zip(&one.members) {
                let found = judge_member(k, CASE_FORM, met(&f), m).unwrap();
                let met_alone = [f.cases[i].meets_wall_share, false, false, false];
                let alone = judge_member(k, OLD_FORM, met_alone, single).unwrap();
                assert_eq!(alone, [found[i]]);
            }
        }
        assert_eq!(f.risky, risky_cases > 0);
        storeys[risky_cases.div_ceil(3).min(2)] += 1;
        first += its.len();
    }
    let building =
        |survey: &Survey| judge_building(&survey.header, &survey.storeys, &survey.members).unwrap();
    let whole = building(survey);
    let alone = [0, 1, 2, 3].map(|i| building(&case_alone(survey, i)));
    assert_eq!(whole.risky, alone.iter().any(|b| b.risky));
    assert!(alone.iter().all(|b| b.tilt_above == whole.tilt_above));
    // The first place of all cases, and the first case that has it.
    let places = alone.iter().map(|b| b.place).filter(|&place| place > 0);
    assert_eq!(whole.place, places.min().unwrap_or(0));
    let case = (1..).zip(&alone).find(|(_, b)| b.place == whole.place);
    let case = if whole.place == 0 { 0 } else { case.unwrap().0 };
    assert_eq!(whole.case, case);
    for b in &alone {
        assert_eq!(b.case, (b.place > 0) as u64);
    }
    buildings[whole.risky as usize] += 1;
}

/// A storey of so many members, none over in any case.
fn sound(count: u64) -> (Storey, Vec<Member>) {
    let calm = LoadCase {
        m_p: 1,
        v_r: 1,
        ..LoadCase::default()
    };
    let m = member().record_with([calm; 4]);
    let members = (1..=count).map(|number| Member { number, ..m });
    (Storey { count, ..storey() }, members.collect())
}

#[test]
fn risky_in_one_case_alone() {
    for i in 0..4 {
        let (s, mut members) = sound(2);
        members[0].cases[i].rotation = 9_999_999;
        members[0].cases[i].v = s.shears[i];
        let f = judge_storey(100, CASE_FORM, &s, &members).unwrap();
        assert!(f.risky);
        for (j, case) in f.cases.iter().enumerate() {
            assert_eq!(case.risky, i == j);
            assert_eq!(case.by_share, i == j);
            assert_eq!(case.p, if i == j { s.shears[i] } else { 0 });
        }
    }
    let (s, members) = sound(2);
    assert!(!judge_storey(100, CASE_FORM, &s, &members).unwrap().risky);
}

/// P and W are held against each other in one case, never across.
#[test]
fn shares_by_case() {
    let (mut s, mut members) = sound(2);
    s.shears = [1_000, 100, 1_000, 1_000];
    members[0].n_d = 0;
    members[1].n_d = 0;
    // 350 of 1,000 passes, of 100 it would not; 36 of 100 is too much.
    for (i, v) in [350, 35, 350, 351].into_iter().enumerate() {
        members[0].cases[i].rotation = 9_999_999;
        members[0].cases[i].v = v;
    }
    let f = judge_storey(100, CASE_FORM, &s, &members).unwrap();
    let risky: Vec<bool> = f.cases.iter().map(|c| c.risky).collect();
    assert_eq!(risky, [false, false, false, true]);
    assert!(f
        .cases
        .iter()
        .all(|c| c.allowed_share == Fraction::new(7, 20)));
    members[0].cases[1].v = 36;
    let f = judge_storey(100, CASE_FORM, &s, &members).unwrap();
    assert!(f.cases[1].risky && f.cases[1].by_share);
}

#[test]
fn risky_by_damage_in_every_case() {
    let (s, mut members) = sound(20);
    members[7].damage_kind = 4;
    let f = judge_storey(100, CASE_FORM, &s, &members).unwrap();
    assert!(f.risky);
    for case in &f.cases {
        assert!(case.risky && case.by_damage && !case.by_share && !case.by_one_over);
        assert_eq!(case.p, 0);
    }
    let (s, mut members) = sound(21);
    members[7].damage_kind = 4;
    let f = judge_storey(100, CASE_FORM, &s, &members).unwrap();
    assert!(!f.risky);
    assert!(f.cases.iter().all(|c| !c.risky && !c.by_damage));
}

/// N_D enters once: Σ is that of one case, and one member over in a case makes
/// that case Risky above the end.
#[test]
fn sigma_once() {
    let with_n_d = |n_d| {
        let (s, mut members) = sound(2);
        for m in &mut members {
            m.a_c = 1_000_000;
            m.n_d = 65_000;
        }
        members[0].n_d = n_d;
        members[1].cases[2].rotation = 9_999_999;
        judge_storey(100, CASE_FORM, &s, &members).unwrap()
    };
    let f = with_n_d(65_000);
    assert_eq!((f.sum, f.risky), (130_000, false));
    assert!(f
        .cases
        .iter()
        .all(|c| c.allowed_share == Fraction::new(0, 1)));
    let f = with_n_d(65_001);
    assert_eq!((f.sum, f.risky), (130_001, true));
    for (i, case) in f.cases.iter().enumerate() {
        assert_eq!((case.by_one_over, case.risky), (i == 2, i == 2));
        assert!(!case.by_share && !case.by_damage);
    }
}

#[test]
fn tilt_once() {
    let (s, members) = sound(2);
    for (tilt_1, tilt_2, above) in [
        (25_000, 25_000, false),
        (25_001, 0, true),
        (0, 25_001, true),
    ] {
        let h = Header {
            tilt_1,
            tilt_2,
            ..header()
        };
        let b = judge_building(&h, &[s], &members).unwrap();
        assert_eq!((b.tilt_above, b.risky), (above, above));
        assert_eq!((b.place, b.case), (0, 0));
        // No case is Risky by tilt.
        let text = String::from_utf8(report(&h, &[s], &members, usize::MAX).unwrap()).unwrap();
        let storey_lines: Vec<&str> = text.lines().filter(|l| l.starts_with('S')).collect();
        assert_eq!(storey_lines.len(), 4);
        assert!(storey_lines.iter().all(|l| l.ends_with(" 0")));
        let last = if above {
            "B           1           1"
        } else {
            "B           0           0"
        };
        assert_eq!(text.lines().last(), Some(last));
    }
}

/// The 0.40 condition holds by case, and drops the m test in that case alone.
#[test]
fn walls_by_case() {
    let load = LoadCase {
        m_e: 9_999_999,
        m_p: 1,
        drift: 7_499,
        ..wall().load()
    };
    let w = wall().record_with([load; 4]);
    for i in 0..4 {
        let mut met = [false; 4];
        met[i] = true;
        let found = judge_member(100, CASE_FORM, met, &w).unwrap();
        for (j, f) in found.iter().enumerate() {
            assert!(f.m_above && !f.rotation_above);
            assert_eq!((f.m_dropped, f.over), (i == j, i != j));
        }
    }
    // A drift of 7,500 in the third case and V_e not below in the fourth.
    let mut other = w;
    other.cases[2].drift = 7_500;
    other.cases[3].v_r = 90_000;
    other.cases[1].rotation = 30_001;
    let found = judge_member(100, CASE_FORM, [true; 4], &other).unwrap();
    let dropped: Vec<bool> = found.iter().map(|f| f.m_dropped).collect();
    let over: Vec<bool> = found.iter().map(|f| f.over).collect();
    assert_eq!(dropped, [true, true, false, false]);
    assert_eq!(over, [false, true, true, true]);

    // 400 of 1,000, 399 of 1,000, 400 of 1,001, 0 of 1.
    let (mut s, mut members) = sound(2);
    s.shears = [1_000, 1_000, 1_001, 1];
    members[0] = w;
    for (i, v) in [400, 399, 400, 0].into_iter().enumerate() {
        members[0].cases[i].v = v;
    }
    let f = judge_storey(100, CASE_FORM, &s, &members).unwrap();
    let p: Vec<u64> = f.cases.iter().map(|c| c.p).collect();
    assert_eq!(met(&f), [true, false, false, false]);
    assert_eq!(p, [0, 399, 400, 0]);
    // The walls of another case are not looked at, nor are columns.
    members[1].cases[1].v = 9_999_999;
    let f = judge_storey(100, CASE_FORM, &s, &members).unwrap();
    assert_eq!(met(&f), [true, false, false, false]);
}

/// m_dropped tells of the test, m_above of the ratio: each with and without the
/// other.
#[test]
fn dropped_and_above() {
    let calm = LoadCase {
        m_e: 0,
        drift: 0,
        ..wall().load()
    };
    let strained = LoadCase {
        m_e: 9_999_999,
        m_p: 1,
        ..calm
    };
    let w = wall().record_with([calm, strained, calm, strained]);
    let found = judge_member(100, CASE_FORM, [true, true, false, false], &w).unwrap();
    let of = |f: &independent::MemberFinding| (f.m_dropped, f.m_above, f.over);
    assert_eq!(of(&found[0]), (true, false, false));
    assert_eq!(of(&found[1]), (true, true, false));
    assert_eq!(of(&found[2]), (false, false, false));
    assert_eq!(of(&found[3]), (false, true, true));
    // Never dropped for a column.
    let c = detailed().record_with([calm, strained, calm, strained]);
    let found = judge_member(100, CASE_FORM, [true; 4], &c).unwrap();
    assert!(found.iter().all(|f| !f.m_dropped));
}

/// The class is that of the case.
#[test]
fn classes_by_case() {
    let with_v_e = |v_e| LoadCase {
        v_e,
        ..detailed().load()
    };
    let column = detailed().record_with([63, 64, 99, 100].map(with_v_e));
    let found = judge_member(90, CASE_FORM, [false; 4], &column).unwrap();
    let classes: Vec<u8> = found.iter().map(|f| f.class).collect();
    assert_eq!(classes, [1, 2, 2, 2]);
    let column = member().record_with([63, 99, 100, 64].map(with_v_e));
    let found = judge_member(90, CASE_FORM, [false; 4], &column).unwrap();
    let classes: Vec<u8> = found.iter().map(|f| f.class).collect();
    assert_eq!(classes, [2, 2, 3, 2]);
    let with_v_r = |v_r| LoadCase {
        v_r,
        ..wall().load()
    };
    let w = wall().record_with([90_001, 90_000, 1, 9_999_999].map(with_v_r));
    let found = judge_member(100, CASE_FORM, [false; 4], &w).unwrap();
    let classes: Vec<u8> = found.iter().map(|f| f.class).collect();
    assert_eq!(classes, [4, 5, 5, 4]);
}

#[test]
fn findings_of_the_cases_of_the_form() {
    for form in [OLD_FORM, CASE_FORM] {
        let mut draw = Draw(20_210_006);
        let m = draw.member(form, 1);
        let s = Storey {
            number: 1,
            shears: draw.shears(form),
            count: 1,
        };
        let cases = cases_of(form);
        assert_eq!(cases, if form == OLD_FORM { 1 } else { 4 });
        assert_eq!(judge_member(90, form, [true; 4], &m).unwrap().len(), cases);
        assert_eq!(judge_storey(90, form, &s, &[m]).unwrap().cases.len(), cases);
    }
}

/// Lines of the case sheet: 8, 7 and 2 fields of 12 columns.
#[test]
fn sizes_of_sheet_lines() {
    for line in EXAMPLE_SHEET.lines() {
        let fields = match &line[..1] {
            "M" => 8,
            "S" => 7,
            _ => 2,
        };
        assert_eq!(line.len(), 1 + 12 * fields);
    }
    let whole = sheet(&block(2, 3));
    let tags: String = whole.lines().map(|l| &l[..1]).collect();
    assert_eq!(tags, "MMMSMMMSMMMSMMMSMMMSMMMSMMMSMMMSB");
    let heads: Vec<String> = whole
        .lines()
        .filter(|l| l.starts_with('S'))
        .map(|l| l[1..25].split_whitespace().collect::<Vec<_>>().join(" "))
        .collect();
    assert_eq!(
        heads,
        ["1 2", "2 2", "3 2", "4 2", "1 1", "2 1", "3 1", "4 1"]
    );
}

#[test]
fn nine() {
    let of = |room| report(&header(), &[storey()], &members(), room);
    let len = EXAMPLE_SHEET.len();
    assert_eq!(of(len).unwrap(), EXAMPLE_SHEET.as_bytes());
    assert_eq!(common::refused(of(len - 1)), (9, 0));
    assert_eq!(common::refused(of(0)), (9, 0));
}

/// The same in four cases and in the old form: four lines for one.
#[test]
fn four_equal_cases() {
    let flat = [common::member(), common::second_member()];
    let s = Storey {
        shears: [1_000; 4],
        ..storey()
    };
    let members = flat.map(|m| m.record_with([m.load(); 4]));
    let text = report(&header(), &[s], &members, usize::MAX).unwrap();
    let text = String::from_utf8(text).unwrap();
    let single = old::report(&common::header(), &[common::storey()], &flat, usize::MAX).unwrap();
    assert_eq!(single, common::EXAMPLE_SHEET.as_bytes());
    let single: Vec<&str> = common::EXAMPLE_SHEET.lines().collect();
    for (i, line) in text.lines().enumerate() {
        let expected = if i == 12 {
            single[3].to_string()
        } else {
            let former = single[i % 3];
            format!("{}{:>12}{}", &former[..1], i / 3 + 1, &former[1..])
        };
        assert_eq!(line, expected);
    }
}
