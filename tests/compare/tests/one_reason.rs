//! The samples that are Risky for one reason alone, and those with tension, by the proved library's answers.
use compare::{by_storey, judge_building, judge_member, judge_storey, member_numbers, member_rows, same_building, samples};
use independent::lines::{cases_of, CASES};
use independent::{Member, Survey};
use llunareth::{BuildingFinding, MemberFinding, StoreyCaseFinding};

fn survey(name: &str) -> Survey {
    compare::read(&samples::survey(name), 10, 320).expect("a good survey")
}

fn building(survey: &Survey) -> BuildingFinding {
    assert_eq!(same_building(survey), None);
    let rows = member_rows(&survey.members).expect("good members");
    judge_building(&survey.header, &survey.storeys, &rows).expect("accepted")
}

/// What is found of each storey in each case.
fn storeys(survey: &Survey) -> Vec<StoreyCaseFinding> {
    let found = |(storey, members): (_, &[Member])| {
        let rows = member_rows(members).expect("good members");
        judge_storey(survey.header.knowledge, survey.header.form, &storey, &rows).expect("accepted").cases.to_vec()
    };
    by_storey(survey).into_iter().flat_map(found).collect()
}

/// What is found of each member in each case; none of these surveys has walls.
fn members(survey: &Survey) -> Vec<Vec<MemberFinding>> {
    let found = |m: &Member| judge_member(survey.header.knowledge, survey.header.form, [false; CASES], &member_numbers(m).expect("a good member"));
    survey.members.iter().map(|m| found(m).expect("accepted")).collect()
}

/// Risky by the share, by one member over, by damage.
fn rules(found: &StoreyCaseFinding) -> [bool; 3] {
    [found.by_share, found.by_one_over, found.by_damage]
}

fn all_rules(survey: &Survey) -> Vec<[bool; 3]> {
    storeys(survey).iter().map(rules).collect()
}

/// The places of the members that are over in some case, counted from 0.
fn over(survey: &Survey) -> Vec<usize> {
    let found = members(survey);
    (0..found.len()).filter(|&i| found[i].iter().any(|case| case.over)).collect()
}

const NO_RULE: [bool; 3] = [false; 3];
const NOT_RISKY: BuildingFinding = BuildingFinding { tilted: false, risky: false, place: 0, case: 0 };

#[test]
fn damage_alone() {
    let damaged = survey("risky-by-damage");
    assert_eq!(all_rules(&damaged), [[false, false, true], NO_RULE]);
    assert!(over(&damaged).is_empty());
    assert_eq!(building(&damaged), BuildingFinding { tilted: false, risky: true, place: 1, case: 1 });
    let kinds: Vec<Vec<u64>> = by_storey(&damaged).iter().map(|(_, members)| members.iter().map(|m| m.damage_kind).collect()).collect();
    assert_eq!(kinds, [[0, 0, 1, 2, 0, 0], [0, 0, 1, 0, 0, 0]]);
    let mut sound = damaged;
    sound.members.iter_mut().for_each(|m| m.damage_kind = 0);
    assert_eq!(building(&sound), NOT_RISKY);
}

#[test]
fn tilt_alone() {
    let tilted = survey("risky-by-tilt");
    assert_eq!(all_rules(&tilted), [NO_RULE; 2]);
    assert!(over(&tilted).is_empty());
    assert_eq!(building(&tilted), BuildingFinding { tilted: true, risky: true, place: 0, case: 0 });
    let mut upright = tilted;
    upright.header.tilt_1 = 25_000;
    assert_eq!(building(&upright), NOT_RISKY);
}

/// The post that is over carries no shear, so P is 0 and not above the allowed share, which is 0 as well.
#[test]
fn axial_load_alone() {
    let loaded = survey("risky-by-axial-load");
    let found = storeys(&loaded)[0];
    assert_eq!((storeys(&loaded).len(), rules(&found)), (1, [false, true, false]));
    assert!(found.axial_total > 65_000 * found.members, "the mean n_D is above 0.65");
    assert_eq!((found.over_shear, found.allowed_num), (0, 0));
    assert_eq!(building(&loaded), BuildingFinding { tilted: false, risky: true, place: 1, case: 1 });
    let [post] = over(&loaded)[..] else { panic!("one member over") };
    let finding = members(&loaded)[post][0];
    assert!(finding.over_rotation && !finding.over_m);
    let mut within = loaded.clone();
    within.members[post].cases[0].rotation = finding.rotation_limit;
    assert_eq!(building(&within), NOT_RISKY);
    let mut sheared = loaded;
    sheared.members[post].cases[0].v = 1;
    assert_eq!(all_rules(&sheared), [[true, true, false]], "with any shear the share is passed too");
}

/// Columns in tension have the ratios and limits of columns without axial force, and add nothing to the total of n_D.
fn tension_counts_as_no_force(survey: &Survey) {
    let mut unloaded = survey.clone();
    unloaded.members.iter_mut().for_each(|m| {
        m.n_d = m.n_d.max(0);
        m.cases.iter_mut().for_each(|load| load.n_k = load.n_k.max(0));
    });
    assert_ne!(&unloaded, survey);
    assert_eq!(members(&unloaded), members(survey));
    assert_eq!(storeys(&unloaded), storeys(survey));
    let total: u64 = members(survey).iter().map(|found| found[0].nd).sum();
    let pressed = survey.members.iter().filter(|m| m.n_d > 0).count() as u64;
    assert_eq!(members(survey)[2][0].nd, 0, "the column that hangs");
    assert!(storeys(survey).iter().all(|found| found.axial_total == total && total == 6_112 * pressed), "{total}");
}

#[test]
fn tension() {
    for (name, form) in [("tension", 1), ("cases-tension", 2)] {
        let survey = survey(name);
        let lifted: Vec<Vec<bool>> = survey.members.iter().map(|m| m.cases[..cases_of(form)].iter().map(|load| load.n_k < 0).collect()).collect();
        let due = [[true, false, false, false], [true, false, false, false], [true; 4], [false, true, false, false], [false, true, false, false]];
        assert_eq!(lifted, due.map(|cases| cases[..cases_of(form)].to_vec()), "{name}");
        let hung: Vec<bool> = survey.members.iter().map(|m| m.n_d < 0).collect();
        assert_eq!(hung, [false, false, true, false, false]);
        tension_counts_as_no_force(&survey);
        assert_eq!((over(&survey), building(&survey)), (vec![], NOT_RISKY), "{name}");
        assert!(all_rules(&survey).iter().all(|rules| *rules == NO_RULE));
    }
}

/// The minus stands directly before the number, at the right of its field.
#[test]
fn how_a_minus_is_written() {
    let columns = |name: &str, line: usize, field: usize| {
        let text = String::from_utf8(samples::survey(name)).expect("text");
        text.lines().nth(line - 1).expect("the line")[8 * field - 7..8 * field + 1].to_string()
    };
    assert_eq!([columns("tension", 3, 19), columns("tension", 5, 18), columns("tension", 5, 19)], ["    -250", "    -350", "    -420"]);
    assert_eq!([columns("cases-tension", 13, 18), columns("cases-tension", 4, 2), columns("cases-tension", 14, 2)], ["    -350", "    -250", "    -420"]);
}
