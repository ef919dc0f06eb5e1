//! The report call against the independent program, byte by byte.
use compare::{
    assert_left, at_edges, header_numbers, member_rows, pattern, same_report, sheet, storey_rows, worked_examples, FORMS, RECORD_REFUSALS, REFUSALS,
};
use generator::{lent_bytes, sheet_len, survey_in_case, surveys_at_rows, valid_survey, valid_survey_of, wild_survey, Rng};
use independent::lines::{cases_of, CASE_FORM};
use independent::{Header, Refusal, Survey};
use llunareth::{raw, HEADER_NUMBERS};

const SEED: u64 = 20_260_118;
const NINE: Option<Refusal> = Some(Refusal { number: 9, line: 0 });

/// Compares a good survey's sheet in buffers that hold it and in buffers that do not.
fn in_every_buffer(rng: &mut Rng, survey: &Survey) {
    let len = sheet_len(survey);
    for room in [len, len + 1, len + 2 + rng.index(2_000)] {
        assert_eq!(same_report(survey, room), None, "{room} bytes for {len}");
    }
    for room in [0, rng.index(len), len - 1] {
        assert_eq!(same_report(survey, room), NINE, "{room} bytes for {len}");
    }
}

#[test]
fn accepted_surveys() {
    let mut rng = Rng::new(SEED);
    for _ in 0..6_000 {
        let survey = valid_survey(&mut rng);
        in_every_buffer(&mut rng, &survey);
    }
}

#[test]
fn every_row_of_the_tables() {
    let mut rng = Rng::new(SEED + 1);
    for survey in FORMS.into_iter().flat_map(surveys_at_rows) {
        in_every_buffer(&mut rng, &survey);
    }
}

#[test]
fn large_buildings_at_every_edge() {
    let mut rng = Rng::new(SEED + 2);
    for (form, storeys) in FORMS.into_iter().flat_map(|form| [1, 2, 5, 10].map(|storeys| (form, storeys))) {
        let survey = at_edges(&mut rng, form, storeys);
        in_every_buffer(&mut rng, &survey);
    }
}

#[test]
fn wild_surveys() {
    let mut rng = Rng::new(SEED + 3);
    let mut seen = [0u32; REFUSALS];
    for _ in 0..40_000 {
        let survey = wild_survey(&mut rng);
        let room = lent_bytes(&mut rng, sheet_len(&survey));
        if let Some(refusal) = same_report(&survey, room) {
            seen[refusal.number as usize] += 1;
        }
    }
    assert!(RECORD_REFUSALS.iter().chain(&[9]).all(|&n| seen[n] > 100), "refusals of records and 9 come up: {seen:?}");
}

#[test]
fn counts_that_would_overflow() {
    for form in FORMS {
        let mut survey = valid_survey_of(&mut Rng::new(SEED + 4), form);
        let room = sheet_len(&survey);
        for count in [0, u64::MAX, u64::MAX - survey.members.len() as u64 + 1] {
            survey.storeys[0].count = count;
            assert_eq!(same_report(&survey, room), Some(Refusal::of_record(1)), "{count} members");
        }
    }
}

#[test]
fn a_survey_without_rows() {
    for header in worked_examples().map(|(survey, _)| survey.header) {
        for (storey_count, number) in [(0, 3), (1, 1)] {
            let survey = Survey { header: Header { storey_count, ..header }, ..Survey::default() };
            assert_eq!(same_report(&survey, 300), Some(Refusal::of_record(number)));
        }
    }
}

/// The survey with each storey's members in the order given for it.
fn reordered(survey: &Survey, orders: &[Vec<usize>]) -> Survey {
    let mut rest = &survey.members[..];
    let mut members = Vec::new();
    for order in orders {
        let (own, after) = rest.split_at(order.len());
        members.extend(order.iter().map(|&i| own[i]));
        rest = after;
    }
    Survey { members, ..survey.clone() }
}

/// The sheet with each storey's `M` lines, in each case, in the order given for them, and every other line where it stands.
fn lines_reordered(sheet: &[u8], orders: &[Vec<usize>]) -> Vec<u8> {
    let lines: Vec<&[u8]> = sheet.split_inclusive(|&b| b == b'\n').collect();
    let mut rest = &lines[..];
    let mut moved = Vec::new();
    for order in orders {
        let (own, after) = rest.split_at(order.len());
        moved.extend(order.iter().map(|&i| own[i]));
        moved.push(after[0]);
        rest = &after[1..];
    }
    moved.extend(rest);
    moved.concat()
}

#[test]
fn another_order_of_members_moves_their_lines_alone() {
    let mut rng = Rng::new(SEED + 5);
    let mut moved = 0;
    for _ in 0..6_000 {
        let survey = valid_survey(&mut rng);
        let orders: Vec<Vec<usize>> = survey.storeys.iter().map(|s| rng.order(s.count as usize)).collect();
        let by_case: Vec<Vec<usize>> = orders.iter().flat_map(|order| vec![order.clone(); cases_of(survey.header.form)]).collect();
        let (first, second) = (sheet(&survey), sheet(&reordered(&survey, &orders)));
        assert!(second == lines_reordered(&first, &by_case), "{orders:?}:\n{}", String::from_utf8_lossy(&second));
        moved += u32::from(first != second);
    }
    assert!(moved > 4_000, "lines moved in {moved} sheets");
}

/// The sheets of a survey's cases, each a survey of the old form, put together: for each storey the lines of each case in turn, with its number
/// first; at the end the building, Risky where it is in some case.
fn put_together(survey: &Survey, sheets: &[Vec<u8>]) -> Vec<u8> {
    let mut lines: Vec<_> = sheets.iter().map(|sheet| sheet.split_inclusive(|&b| b == b'\n')).collect();
    let mut all = Vec::new();
    for s in &survey.storeys {
        for (number, of_case) in (1..).zip(&mut lines) {
            for line in of_case.by_ref().take(s.count as usize + 1) {
                all.extend([&line[..1], format!("{number:>12}").as_bytes(), &line[1..]].concat());
            }
        }
    }
    let building = lines.iter_mut().map(|of_case| of_case.next().expect("the line of the building"));
    all.extend(building.max().expect("four cases"));
    all
}

#[test]
fn a_survey_in_cases_prints_what_its_four_old_surveys_do() {
    let mut rng = Rng::new(SEED + 6);
    let mut differ = 0;
    for _ in 0..3_000 {
        let survey = valid_survey_of(&mut rng, CASE_FORM);
        let sheets: Vec<Vec<u8>> = (0..4).map(|i| sheet(&survey_in_case(i, &survey))).collect();
        let together = put_together(&survey, &sheets);
        assert!(sheet(&survey) == together, "{}", String::from_utf8_lossy(&together));
        differ += u32::from(sheets.iter().any(|s| *s != sheets[0]));
    }
    assert!(differ > 2_500, "cases differ in {differ} surveys");
}

#[test]
fn the_worked_examples() {
    for (survey, text) in worked_examples() {
        assert_eq!(String::from_utf8_lossy(&sheet(&survey)), text);
        for room in 0..text.len() {
            assert_eq!(same_report(&survey, room), NINE);
        }
        for room in text.len()..text.len() + 300 {
            assert_eq!(same_report(&survey, room), None);
        }
    }
}

#[test]
fn a_header_with_a_missing_number_is_refused() {
    for (survey, text) in worked_examples() {
        let (header, storeys) = (header_numbers(&survey.header), storey_rows(&survey.storeys));
        let rows = member_rows(&survey.members).expect("good members");
        for n in 0..HEADER_NUMBERS {
            let call = |sheet: &mut Vec<u8>, out: &mut [u64]| raw::report(&header[..n], &storeys, &rows, sheet, out);
            // Without its count of storeys it is 1; without its form alone 3.
            let number = if n == HEADER_NUMBERS - 1 { 3 } else { 1 };
            assert_eq!(assert_left(raw::REPORT_VALUES, &pattern(text.len()), call), number, "B with {n} numbers");
        }
    }
}
