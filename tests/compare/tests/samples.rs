//! The samples: each survey is what its description makes, each sheet what both programs print, and shows what the sample is named for.
use compare::samples::{self, Sample};
use compare::{refusal_told, same_determine, surveys, worked_example, worked_example_in_cases, FILE_REFUSALS, WORKED_SHEET, WORKED_SHEET_IN_CASES};
use generator::{write_survey, INPUT_MOST};
use independent::lines::{cases_of, CASE_FORM, OLD_FORM};
use independent::{judge_member, judge_storey, Member, Storey, Survey};
use std::fs;

/// More bytes than any sample's sheet has.
const ROOM: usize = 30_000;

/// The one sample whose name begins so.
fn named(start: &str) -> Sample {
    let mut found = samples::all().into_iter().filter(|s| s.name.starts_with(start));
    let sample = found.next().unwrap_or_else(|| panic!("a sample {start}"));
    assert!(found.next().is_none(), "one sample {start}");
    sample
}

fn survey_of(sample: &Sample) -> Survey {
    independent::read(&sample.survey, 10, 320).expect("a good survey")
}

/// The printed numbers of the lines with a tag.
fn printed(sample: &Sample, tag: char) -> Vec<Vec<u64>> {
    let text = std::str::from_utf8(&sample.sheet).expect("text");
    let fields = |line: &str| line.split_whitespace().map(|f| f.parse().expect("a number")).collect();
    text.lines().filter_map(|line| line.strip_prefix(tag)).map(fields).collect()
}

/// A member and its printed line, without the case number.
type Judged = (Member, Vec<u64>);

/// A storey in a load case, counted from 0, with its members.
struct Floor {
    storey: Storey,
    case: usize,
    members: Vec<Judged>,
}

/// Each storey in each case of the sample's form, in the order of the sheet.
fn floors(sample: &Sample) -> Vec<Floor> {
    let survey = survey_of(sample);
    let cases = cases_of(survey.header.form);
    let (mut lines, mut rest) = (printed(sample, 'M').into_iter(), survey.members.into_iter());
    let mut floors = Vec::new();
    for storey in survey.storeys {
        let own: Vec<Member> = rest.by_ref().take(storey.count as usize).collect();
        for case in 0..cases {
            let mut members: Vec<Judged> = own.iter().copied().zip(lines.by_ref()).collect();
            if cases > 1 {
                members.iter_mut().for_each(|(_, line)| assert_eq!(line.remove(0), case as u64 + 1));
            }
            floors.push(Floor { storey, case, members });
        }
    }
    floors
}

#[test]
fn every_survey_has_its_sheet_and_its_line_in_the_readme() {
    let names = samples::names(".survey");
    assert_eq!(names, samples::names(".sheet"));
    assert_eq!(samples::names("").len(), 2 * names.len() + 1, "nothing else but the README");
    let readme = fs::read_to_string(samples::folder().join("README.md")).expect("README.md");
    for name in names {
        assert_eq!(readme.matches(&format!("| `{name}` |")).count(), 1, "{name} in README.md");
    }
}

#[test]
fn every_survey_is_what_its_description_makes() {
    let mut made = surveys::all();
    made.sort();
    let names: Vec<&str> = made.iter().map(|(name, _)| *name).collect();
    assert_eq!(names, samples::names(".survey"));
    for (name, survey) in made {
        assert!(survey == samples::survey(name), "{name}");
    }
}

#[test]
fn every_sheet_is_what_both_programs_print() {
    for sample in samples::all() {
        let shown = String::from_utf8_lossy;
        assert_eq!(shown(&same_determine(&sample.survey, ROOM)), shown(&sample.sheet), "{}", sample.name);
    }
}

#[test]
fn each_class() {
    for class in 1..=5 {
        let sample = named(&format!("class-{class}-"));
        let members = printed(&sample, 'M');
        assert!(!members.is_empty() && members.iter().all(|m| m[1] == class), "{}", sample.name);
    }
}

#[test]
fn each_refusal() {
    for number in FILE_REFUSALS {
        let start = format!("refusal-{number}-");
        let shown: Vec<Sample> = samples::all().into_iter().filter(|sample| sample.name.starts_with(&start)).collect();
        assert!(!shown.is_empty(), "a sample {start}");
        for sample in shown {
            let told = refusal_told(&sample.sheet).expect("a refusal");
            assert_eq!((usize::from(told.number), told.line == 0), (number, number == 8), "{}", sample.name);
            assert_eq!(sample.survey.len() > INPUT_MOST, number == 8, "{}", sample.name);
        }
    }
}

/// The plain block as it was before the last field of the M line: with it put in, it is the plain block.
#[test]
fn a_file_without_the_last_field() {
    let sample = named("refusal-1-without-last-field");
    assert_eq!(refusal_told(&sample.sheet).map(|told| (told.number, told.line)), Some((1, 3)));
    let text = String::from_utf8(sample.survey).expect("text");
    let mended: String = text.lines().map(|line| if line.starts_with('M') { format!("{line}{:>8}\n", 0) } else { format!("{line}\n") }).collect();
    assert_eq!(mended.as_bytes(), named("plain-block").survey);
    assert!(text.lines().filter(|line| line.starts_with('M')).all(|line| line.len() + 1 == 210));
}

#[test]
fn too_long_and_nothing_else() {
    let survey = survey_of(&named("refusal-8-"));
    assert!(independent::report(&survey.header, &survey.storeys, &survey.members, usize::MAX).is_ok());
}

#[test]
fn the_worked_examples() {
    let examples = [("worked-example", worked_example(), WORKED_SHEET), ("cases-worked-example", worked_example_in_cases(), WORKED_SHEET_IN_CASES)];
    for (name, survey, sheet) in examples {
        let sample = named(name);
        assert_eq!(sample.survey, write_survey(&survey));
        assert_eq!(sample.sheet, sheet.as_bytes());
    }
}

#[test]
fn some_members_of_the_plain_block_are_over() {
    let sample = named("plain-block");
    let overs = printed(&sample, 'M').iter().filter(|m| m[6] == 1).count();
    let risky: Vec<u64> = printed(&sample, 'S').iter().map(|s| s[5]).collect();
    assert_eq!((overs, risky, printed(&sample, 'B')), (2, vec![1, 0, 0], vec![vec![0, 1]]));
}

/// The printed limits of m and rotation.
fn limits(line: &[u64]) -> (u64, u64) {
    (line[3], line[5])
}

/// Whether a limit rounded down can be 3/4 of one that is printed rounded down.
fn three_quarters(printed: u64, reduced: u64) -> bool {
    3 * printed / 4 <= reduced && 4 * reduced < 3 * (printed + 1)
}

/// Panics unless, in each storey and case, plain columns have their own limits and the strengthened one 3/4 of them. In each storey and case: how
/// many plain columns are past the limits of the strengthened one.
fn past_reduced(sample: &Sample) -> Vec<usize> {
    let header = survey_of(sample).header;
    let past = |floor: Floor| {
        let (strengthened, plain): (Vec<Judged>, Vec<Judged>) = floor.members.into_iter().partition(|(m, _)| m.strengthened == 1);
        let reduced = limits(&strengthened[0].1);
        let is_past = |(m, line): &&Judged| {
            let alone = judge_member(header.knowledge, header.form, [false; 4], m).expect("a good member")[floor.case];
            assert_eq!(limits(line), (alone.m_limit, alone.rotation_limit));
            assert!(three_quarters(line[3], reduced.0) && three_quarters(line[5], reduced.1), "{line:?}, reduced to {reduced:?}");
            line[2] > reduced.0 && line[4] > reduced.1
        };
        plain.iter().filter(is_past).count()
    };
    floors(sample).into_iter().map(past).collect()
}

#[test]
fn plain_columns_keep_their_limits_beside_a_strengthened_one() {
    for (name, past) in [("strengthened-column-first", vec![3, 0]), ("cases-strengthened-column-first", vec![3, 3, 3, 3, 0, 0, 0, 0])] {
        let sample = named(name);
        assert_eq!(past_reduced(&sample), past, "plain columns past the reduced limits");
        assert_eq!(survey_of(&sample).members[0].strengthened, 1, "listed first");
        assert_eq!(printed(&sample, 'B'), [[0, 0]], "not Risky");
    }
}

/// Of each wall, in the order of the sheet: class, limits of m and rotation, over.
fn wall_lines(sample: &Sample) -> Vec<(u64, (u64, u64), u64)> {
    let walls = floors(sample).into_iter().flat_map(|floor| floor.members).filter(|(_, line)| line[1] > 3);
    walls.map(|(_, line)| (line[1], limits(&line), line[6])).collect()
}

#[test]
fn a_strengthened_wall_by_its_mark() {
    let [without, with] = ["strengthened-wall-not-detailed", "strengthened-wall-detailed"].map(named);
    let differ = survey_of(&without).members.iter().zip(&survey_of(&with).members).filter(|(a, b)| a != b).count();
    assert_eq!(differ, 2, "the walls");
    let mut marked = survey_of(&without);
    marked.members.iter_mut().filter(|m| m.strengthened == 1).for_each(|m| m.annex_e = 1);
    assert_eq!(marked, survey_of(&with), "and nothing but their marks");
    assert_eq!(wall_lines(&without), [(5, (230_496, 9_219), 1); 2]);
    assert_eq!(wall_lines(&with), [(5, (460_993, 18_439), 0); 2]);
    assert_eq!((printed(&without, 'B'), printed(&with, 'B')), (vec![vec![0, 1]], vec![vec![0, 0]]));
}

#[test]
fn a_strengthened_wall_halved_where_it_is_of_class_b() {
    let sample = named("cases-strengthened-wall");
    let [along, back, across, again] = std::array::from_fn(|i| wall_lines(&sample)[2 * i]);
    assert_eq!([along.0, back.0, across.0, again.0], [5, 5, 4, 4]);
    assert_eq!([along.2, back.2, across.2, again.2], [1, 1, 0, 0]);
    assert!(survey_of(&sample).members.iter().all(|m| m.annex_e == 0), "not detailed");
    let risky: Vec<u64> = printed(&sample, 'S').iter().map(|s| s[6]).collect();
    assert_eq!(risky, [1, 1, 0, 0]);
}

/// Above 0.2 more shear in a wall can clear a building: class B has the higher limit of m.
#[test]
fn core_walls_cleared_by_more_shear() {
    let [less, more] = ["core-walls-class-a", "core-walls-class-b"].map(named);
    let mut loaded = survey_of(&less);
    loaded.members.iter_mut().filter(|m| m.long_side == 3_000).for_each(|m| m.cases[0].v_e = 9_000);
    assert_eq!(loaded, survey_of(&more), "alike but for the walls' V_e");
    assert_eq!(wall_lines(&less), [(4, (440_000, 21_333), 1); 2]);
    assert_eq!(wall_lines(&more), [(5, (500_000, 20_000), 0); 2]);
    assert_eq!((printed(&less, 'B'), printed(&more, 'B')), (vec![vec![0, 1]], vec![vec![0, 0]]));
}

/// In each storey and case: the 0.40 condition; of each wall: boundary zone, m past its limit, over.
fn walls_of(sample: &Sample) -> Vec<(bool, Vec<(u64, bool, u64)>)> {
    let header = survey_of(sample).header;
    let found = |floor: Floor| {
        let records: Vec<Member> = floor.members.iter().map(|(m, _)| *m).collect();
        let storey = judge_storey(header.knowledge, header.form, &floor.storey, &records).expect("a good storey");
        let walls = floor.members.iter().filter(|(_, line)| line[1] == 4);
        (storey.cases[floor.case].meets_wall_share, walls.map(|(m, line)| (m.boundary_zone, line[2] > line[3], line[6])).collect())
    };
    floors(sample).into_iter().map(found).collect()
}

#[test]
fn walls_in_a_storey_that_meets_the_condition_and_in_one_that_does_not() {
    let met = (true, vec![(1, false, 0), (0, true, 0)]);
    let not_met = (false, vec![(1, false, 0), (0, true, 1)]);
    assert_eq!(walls_of(&named("walls")), [met, not_met]);
}

#[test]
fn walls_that_meet_the_condition_in_one_direction_only() {
    let sample = named("cases-walls-one-direction");
    let met = (true, vec![(1, false, 0), (0, true, 0)]);
    let not_met = (false, vec![(1, false, 0), (0, true, 1)]);
    assert_eq!(walls_of(&sample), [met.clone(), met, not_met.clone(), not_met]);
    assert_eq!(printed(&sample, 'B'), [[0, 0]], "not Risky");
}

#[test]
fn a_storey_that_is_risky_in_case_3_alone() {
    let sample = named("cases-risky-in-case-3");
    let risky: Vec<(u64, u64, u64)> = printed(&sample, 'S').iter().map(|s| (s[1], s[0], s[6])).collect();
    assert_eq!(risky, [(1, 1, 0), (1, 2, 0), (1, 3, 1), (1, 4, 0), (2, 1, 0), (2, 2, 0), (2, 3, 0), (2, 4, 0)]);
    assert_eq!(printed(&sample, 'B'), [[0, 1]]);
}

#[test]
fn the_samples_in_cases_have_that_form() {
    let accepted = samples::all().into_iter().filter_map(|s| Some((independent::read(&s.survey, 10, 320).ok()?.header.form, s.name)));
    for (form, name) in accepted {
        assert_eq!(form, if name.starts_with("cases-") { CASE_FORM } else { OLD_FORM }, "{name}");
    }
}
