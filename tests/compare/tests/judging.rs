//! The calls on a member, a storey and a building against the independent program.
use compare::{by_storey, in_four_cases, same_building, same_member, same_report, same_storey, worked_example, FORMS, RECORD_REFUSALS, REFUSALS};
use generator::{any_form, edge_member_for, valid_survey, wild_member, wild_storey, wild_survey, Rng};
use independent::lines::{cases_of, OLD_FORM};
use independent::{Member, Survey};

const SEED: u64 = 20_260_116;

/// The 0.40 condition of each case, any of them.
fn any_met(rng: &mut Rng) -> [bool; 4] {
    std::array::from_fn(|_| rng.chance(50))
}

#[test]
fn members_at_every_edge() {
    let mut rng = Rng::new(SEED);
    let (mut classes, mut overs) = ([[0u32; 6]; 4], [[0u32; 2]; 4]);
    for _ in 0..40_000 {
        let (k, form) = (rng.pick(&[90, 100]), any_form(&mut rng));
        let m = edge_member_for(&mut rng, k, form);
        for met in [[false; 4], [true; 4], any_met(&mut rng)] {
            assert_eq!(same_member(k, form, met, &m), None);
        }
        for (i, f) in independent::judge_member(k, form, [true; 4], &m).unwrap().iter().enumerate() {
            classes[i][f.class as usize] += 1;
            overs[i][usize::from(f.over)] += 1;
        }
    }
    assert!(classes.iter().all(|of| of[1..].iter().all(|&n| n > 500)), "every class comes up in each case: {classes:?}");
    assert!(overs.as_flattened().iter().all(|&n| n > 500), "over and not in each case: {overs:?}");
}

/// In the old form the 0.40 conditions of cases that it lacks are not looked at.
#[test]
fn conditions_of_lacking_cases() {
    let mut rng = Rng::new(SEED + 6);
    for _ in 0..2_000 {
        let k = rng.pick(&[90, 100]);
        let m = edge_member_for(&mut rng, k, OLD_FORM);
        let [first, ..] = any_met(&mut rng);
        let [_, b, c, d] = any_met(&mut rng);
        let judged = |met| independent::judge_member(k, OLD_FORM, met, &m);
        assert_eq!(judged([first, b, c, d]), judged([first, !b, !c, !d]));
        assert_eq!(same_member(k, OLD_FORM, [first, b, c, d], &m), None);
        assert_eq!(same_member(k, OLD_FORM, [first, !b, !c, !d], &m), None);
    }
}

#[test]
fn wild_members_levels_and_forms() {
    let mut rng = Rng::new(SEED + 1);
    let mut seen = [0u32; 5];
    for _ in 0..40_000 {
        let k = rng.pick(&[0, 89, 90, 91, 99, 100, 101, u64::MAX, 90, 100, 90, 100]);
        let form = any_form(&mut rng);
        let given = rng.pick(&[form, form, form, form, 0, 1, 2, 3, u64::MAX]);
        let met = any_met(&mut rng);
        if let Some(r) = same_member(k, given, met, &wild_member(&mut rng, form)) {
            seen[r.number as usize] += 1;
        }
        same_member(k, given, met, &edge_member_for(&mut rng, 100, form));
    }
    assert!(seen[3] > 500 && seen[4] > 50, "{seen:?}");
}

#[test]
fn storeys_of_accepted_surveys() {
    let mut rng = Rng::new(SEED + 2);
    let mut risky = [[0u32; 2]; 4];
    for _ in 0..3_000 {
        let survey = valid_survey(&mut rng);
        let (k, form) = (survey.header.knowledge, survey.header.form);
        for (s, own) in by_storey(&survey) {
            assert_eq!(same_storey(k, form, &s, own), None);
            let first = independent::judge_storey(k, form, &s, own).unwrap();
            for (i, case) in first.cases.iter().enumerate() {
                risky[i][usize::from(case.risky)] += 1;
            }
            let mut own = own.to_vec();
            own.reverse();
            assert_eq!(independent::judge_storey(k, form, &s, &own).unwrap(), first, "in any order");
            same_storey(k, form, &s, &own);
        }
    }
    assert!(risky.as_flattened().iter().all(|&n| n > 300), "{risky:?}");
}

#[test]
fn wild_storeys() {
    let mut rng = Rng::new(SEED + 3);
    let mut seen = [0u32; REFUSALS];
    for _ in 0..20_000 {
        let survey = wild_survey(&mut rng);
        let k = rng.pick(&[90, 100, 90, 100, 90, 100, 95]);
        let form = if rng.chance(20) { any_form(&mut rng) } else { survey.header.form };
        let wild = wild_storey(&mut rng, form);
        let s = if rng.chance(25) { &wild } else { survey.storeys.first().unwrap_or(&wild) };
        let n = if rng.chance(20) { survey.members.len() } else { (s.count as usize).min(survey.members.len()) };
        if let Some(r) = same_storey(k, form, s, &survey.members[..n]) {
            seen[r.number as usize] += 1;
        }
    }
    assert!([1, 3, 4, 5].iter().all(|&n| seen[n] > 20), "refusals 1, 3, 4 and 5 come up: {seen:?}");
}

#[test]
fn buildings() {
    let mut rng = Rng::new(SEED + 4);
    for _ in 0..3_000 {
        assert_eq!(same_building(&valid_survey(&mut rng)), None);
    }
    let mut seen = [0u32; REFUSALS];
    for _ in 0..20_000 {
        if let Some(r) = same_building(&wild_survey(&mut rng)) {
            seen[r.number as usize] += 1;
        }
    }
    assert!(RECORD_REFUSALS.iter().all(|&n| seen[n] > 20), "refusals of records come up: {seen:?}");
}

/// The header's form is read before the records: an unknown one is refused by 3, also where the building is not low-rise; a count by 1 before.
#[test]
fn an_unknown_form() {
    for form in [0, 3, 255, u64::MAX] {
        let mut survey = worked_example();
        survey.header.form = form;
        let refused = |survey: &Survey| same_building(survey).map(|r| r.number);
        assert_eq!(refused(&survey), Some(3), "form {form}");
        survey.header.height = 30_001;
        assert_eq!(refused(&survey), Some(3), "form {form}, not low-rise");
        survey.storeys[0].count = 3;
        assert_eq!(refused(&survey), Some(1), "form {form}, a count");
    }
}

#[test]
fn counts_that_would_overflow() {
    let mut rng = Rng::new(SEED + 5);
    for _ in 0..4 {
        let mut survey = valid_survey(&mut rng);
        for count in [0, u64::MAX, u64::MAX - survey.members.len() as u64 + 1] {
            survey.storeys[0].count = count;
            survey.header.storey_count = survey.storeys.len() as u64;
            same_building(&survey);
        }
    }
}

/// 200 members, the most of a storey, all over, each with the largest V: none of the calls refuses them.
#[test]
fn the_largest_shears() {
    let mut survey = worked_example();
    let mut first = survey.members[0];
    first.cases[0].v = 9_999_999;
    survey.members = (1..=200).map(|number| Member { number, ..first }).collect();
    survey.storeys[0].count = 200;
    for survey in [survey.clone(), in_four_cases(&survey)] {
        let form = survey.header.form;
        let found = independent::judge_storey(100, form, &survey.storeys[0], &survey.members).unwrap();
        assert_eq!((found.c, found.cases.len()), (200, cases_of(form)));
        assert!(found.cases.iter().all(|case| case.p == 1_999_999_800));
        assert_eq!(same_storey(100, form, &survey.storeys[0], &survey.members), None);
        assert_eq!(same_building(&survey), None);
        let sheet = independent::report(&survey.header, &survey.storeys, &survey.members, usize::MAX).unwrap();
        assert_eq!(same_report(&survey, sheet.len()), None);
    }
}

/// A member in four cases is found in each as the member of the old form with that case.
#[test]
fn each_case_by_itself() {
    let mut rng = Rng::new(SEED + 7);
    for _ in 0..4_000 {
        let (k, form) = (rng.pick(&[90, 100]), FORMS[1]);
        let (m, met) = (edge_member_for(&mut rng, k, form), any_met(&mut rng));
        let found = compare::judge_member(k, form, met, &compare::member_numbers(&m).unwrap()).unwrap();
        for (i, case) in found.iter().enumerate() {
            let alone = compare::member_numbers(&generator::member_in_case(i, &m)).unwrap();
            assert_eq!(compare::judge_member(k, OLD_FORM, [met[i]; 4], &alone).unwrap(), [*case], "case {}: {m:?}", i + 1);
        }
    }
}
