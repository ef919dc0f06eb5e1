//! The storey and the case that the building verdict names.

mod common;

use common::cases::{block, header, storey};
use common::old;
use independent::{judge_building, judge_storey, report, LoadCase, Survey};

/// Three storeys of two sound members in four cases, numbered downwards.
fn sound() -> Survey {
    let mut survey = block(3, 2);
    for m in &mut survey.members {
        let calm = LoadCase {
            m_p: 1,
            v_r: 1,
            ..LoadCase::default()
        };
        m.cases = [calm; 4];
    }
    survey
}

/// Makes storey `place`, from 1, Risky in this case alone.
fn spoil(survey: &mut Survey, place: usize, case: usize) {
    let load = &mut survey.members[2 * (place - 1) + 1].cases[case - 1];
    load.rotation = 9_999_999;
    load.v = 9_999_999;
}

/// Place, case, Risky.
fn named(survey: &Survey) -> (u64, u64, bool) {
    let (h, storeys, members) = (&survey.header, &survey.storeys, &survey.members);
    let b = judge_building(h, storeys, members).unwrap();
    (b.place, b.case, b.risky)
}

#[test]
fn none_is_named() {
    assert_eq!(named(&sound()), (0, 0, false));
    // Risky by tilt alone.
    let mut tilted = sound();
    tilted.header.tilt_2 = 25_001;
    assert_eq!(named(&tilted), (0, 0, true));
    spoil(&mut tilted, 3, 2);
    assert_eq!(named(&tilted), (3, 2, true));
}

/// Every choice of Risky cases in three storeys.
#[test]
fn the_first_storey_and_its_lowest_case() {
    for chosen in 0_u32..1 << 12 {
        let mut survey = sound();
        let mut expected = (0, 0, false);
        for bit in (0..12).rev().filter(|bit| chosen >> bit & 1 == 1) {
            let (place, case) = (bit / 4 + 1, bit % 4 + 1);
            spoil(&mut survey, place, case);
            expected = (place as u64, case as u64, true);
        }
        assert_eq!(named(&survey), expected, "{chosen:012b}");
    }
}

/// The storey named is Risky in the case named, in no lower one, and none
/// before it is Risky.
#[test]
fn as_the_storeys_are_found() {
    let mut draw = common::draw::Draw(20_210_008);
    let mut cases = [0; 5];
    for _ in 0..400 {
        let mut survey = block(3, 2);
        for s in &mut survey.storeys {
            s.shears = draw.shears(survey.header.form);
        }
        for m in &mut survey.members {
            *m = draw.member(survey.header.form, m.number);
        }
        let (place, case, risky) = named(&survey);
        let (k, form) = (survey.header.knowledge, survey.header.form);
        let found: Vec<_> = survey
            .storeys
            .iter()
            .zip(survey.members.chunks(2))
            .map(|(s, its)| judge_storey(k, form, s, its).unwrap())
            .collect();
        assert_eq!(risky, found.iter().any(|f| f.risky));
        assert_eq!(risky, place > 0);
        cases[case as usize] += 1;
        if place > 0 {
            let (before, from) = found.split_at(place as usize - 1);
            assert!(before.iter().all(|f| !f.risky));
            let (lower, at) = from[0].cases.split_at(case as usize - 1);
            assert!(lower.iter().all(|c| !c.risky));
            assert!(at[0].risky);
        } else {
            assert_eq!(case, 0);
        }
    }
    assert!(cases.iter().all(|&n| n > 0), "{cases:?}");
}

#[test]
fn by_damage_it_is_case_one() {
    let mut survey = sound();
    spoil(&mut survey, 2, 3);
    assert_eq!(named(&survey), (2, 3, true));
    survey.members[2].damage_kind = 4;
    assert_eq!(named(&survey), (2, 1, true));
    survey.members[5].damage_kind = 4;
    assert_eq!(named(&survey), (2, 1, true));
}

/// In the order of the survey, whatever the numbers.
#[test]
fn not_by_number() {
    let mut survey = sound();
    spoil(&mut survey, 2, 4);
    spoil(&mut survey, 3, 1);
    for numbers in [[3, 2, 1], [1, 2, 3], [9, 1, 5], [5, 9, 1]] {
        for (s, number) in survey.storeys.iter_mut().zip(numbers) {
            s.number = number;
        }
        assert_eq!(named(&survey), (2, 4, true));
    }
}

/// Every choice of Risky storeys in the old form: the case is 1.
#[test]
fn in_the_old_form() {
    for chosen in 0_u32..1 << 3 {
        let h = old::Header {
            storey_count: 3,
            ..common::header()
        };
        let (mut storeys, mut members) = (Vec::new(), Vec::new());
        let mut expected = (0, 0);
        for place in (1..=3).rev() {
            let risky = chosen >> (place - 1) & 1 == 1;
            let m = old::Member {
                m_e: if risky { 600 } else { 0 },
                ..common::member()
            };
            storeys.insert(
                0,
                old::Storey {
                    number: place,
                    ..common::storey()
                },
            );
            members.splice(0..0, [m, common::second_member()]);
            if risky {
                expected = (place, 1);
            }
        }
        let b = old::judge_building(&h, &storeys, &members).unwrap();
        assert_eq!((b.place, b.case), expected);
        assert_eq!(b.risky, chosen > 0);
    }
}

/// Neither place nor case is printed.
#[test]
fn the_sheet_is_as_before() {
    let mut survey = sound();
    spoil(&mut survey, 2, 3);
    let sheet = report(&survey.header, &survey.storeys, &survey.members, usize::MAX).unwrap();
    assert!(sheet.ends_with(b"\nB           0           1\n"));
    let example = report(
        &header(),
        &[storey()],
        &common::cases::members(),
        usize::MAX,
    );
    assert_eq!(example.unwrap(), common::cases::EXAMPLE_SHEET.as_bytes());
}
