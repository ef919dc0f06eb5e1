//! The writing call against the independent program, byte by byte, and both round trips of a file and its records.
use compare::{
    assert_left, at_edges, file, header_numbers, member_rows, pattern, read, same_file, samples, storey_rows, worked_example,
    worked_example_in_cases, worked_examples, FORMS, RECORD_REFUSALS, REFUSALS,
};
use generator::{any_file, file_len, lent_bytes, surveys_at_rows, valid_survey, valid_survey_of, wild_survey, write_survey, Rng};
use independent::lines::{CASE_FORM, OLD_FORM};
use independent::{Header, Refusal, Survey};
use llunareth::{raw, HEADER_NUMBERS};

const SEED: u64 = 20_261_116;
const ELEVEN: Option<Refusal> = Some(Refusal { number: 11, line: 0 });

/// Compares a good survey's file in buffers that hold it and in buffers that do not.
fn in_every_buffer(rng: &mut Rng, survey: &Survey) {
    let len = file_len(survey);
    for room in [len, len + 1, len + 2 + rng.index(2_000)] {
        assert_eq!(same_file(survey, room), None, "{room} bytes for {len}");
    }
    for room in [0, rng.index(len), len - 1] {
        assert_eq!(same_file(survey, room), ELEVEN, "{room} bytes for {len}");
    }
}

/// Writes a good survey, reads it back into rows that hold it, with and without some left over, and writes it again.
fn round_trip(survey: &Survey) {
    let bytes = file(survey);
    let (storeys, members) = (survey.storeys.len(), survey.members.len());
    for (storey_rows, member_rows) in [(storeys, members), (storeys + 1, members + 2)] {
        assert_eq!(read(&bytes, storey_rows, member_rows).as_ref(), Ok(survey), "{storey_rows} and {member_rows} rows");
    }
    assert_eq!(file(&read(&bytes, storeys, members).expect("accepted")), bytes);
}

#[test]
fn good_surveys() {
    let mut rng = Rng::new(SEED);
    for _ in 0..4_000 {
        let survey = valid_survey(&mut rng);
        in_every_buffer(&mut rng, &survey);
        round_trip(&survey);
    }
}

#[test]
fn every_row_of_the_tables() {
    let mut rng = Rng::new(SEED + 1);
    for survey in FORMS.into_iter().flat_map(surveys_at_rows) {
        in_every_buffer(&mut rng, &survey);
        round_trip(&survey);
    }
}

#[test]
fn the_largest_surveys() {
    let mut rng = Rng::new(SEED + 2);
    for (form, longest) in [(OLD_FORM, 436_310), (CASE_FORM, llunareth::WRITE_MOST)] {
        for storeys in [1, 4, 10] {
            let survey = at_edges(&mut rng, form, storeys);
            in_every_buffer(&mut rng, &survey);
            round_trip(&survey);
        }
        assert_eq!(file(&at_edges(&mut rng, form, 10)).len(), longest);
    }
}

#[test]
fn wild_surveys() {
    let mut rng = Rng::new(SEED + 3);
    let mut seen = [0u32; REFUSALS];
    for _ in 0..40_000 {
        let survey = wild_survey(&mut rng);
        let room = lent_bytes(&mut rng, file_len(&survey));
        if let Some(refusal) = same_file(&survey, room) {
            seen[refusal.number as usize] += 1;
        }
    }
    assert!(RECORD_REFUSALS.iter().chain(&[11]).all(|&n| seen[n] > 100), "refusals of records and 11 come up: {seen:?}");
}

/// 11 comes last: a survey with any other refusal has that one, also in an empty buffer.
#[test]
fn every_refusal_before_eleven() {
    let mut rng = Rng::new(SEED + 4);
    let mut seen = [0u32; REFUSALS];
    for _ in 0..10_000 {
        let survey = wild_survey(&mut rng);
        if let Some(refusal) = same_file(&survey, file_len(&survey)) {
            assert_eq!(same_file(&survey, 0), Some(refusal));
            seen[refusal.number as usize] += 1;
        }
    }
    assert!(RECORD_REFUSALS.iter().all(|&n| seen[n] > 30) && seen[11] == 0, "{seen:?}");
}

/// Files, good and damaged: what is read from an accepted one is written as the same bytes.
#[test]
fn files_read_and_written() {
    let mut rng = Rng::new(SEED + 5);
    let mut accepted = 0;
    for _ in 0..20_000 {
        let bytes = any_file(&mut rng);
        if let Ok(survey) = read(&bytes, 10, 2_000) {
            assert_eq!(file(&survey), bytes);
            accepted += 1;
        }
    }
    assert!(accepted > 1_000, "{accepted} files accepted");
}

#[test]
fn samples_read_and_written() {
    let accepted = samples::all().into_iter().filter_map(|sample| Some((read(&sample.survey, 10, 2_000).ok()?, sample.survey)));
    let same = accepted.map(|(survey, bytes)| assert_eq!(file(&survey), bytes)).count();
    assert!(same > 5, "{same} samples accepted");
}

#[test]
fn a_minus_where_a_force_is_negative() {
    let mut survey = worked_example();
    (survey.members[0].n_d, survey.members[1].cases[0].n_k) = (-1, -999_999);
    assert_eq!(file(&survey), write_survey(&survey));
    round_trip(&survey);
    let text = String::from_utf8(file(&survey)).expect("text");
    let lines: Vec<&str> = text.lines().collect();
    assert_eq!((&lines[2][137..145], &lines[3][145..153]), ("      -1", " -999999"));
}

/// In four cases N_D stands before the last field of the M line, N_K after the case number of a D line.
#[test]
fn a_minus_in_each_case() {
    for i in 0..4 {
        let mut survey = worked_example_in_cases();
        survey.members[0].n_d = -999_999;
        survey.members[0].cases[i].n_k = -1;
        assert_eq!(file(&survey), write_survey(&survey));
        round_trip(&survey);
        let text = String::from_utf8(file(&survey)).expect("text");
        let lines: Vec<&str> = text.lines().collect();
        assert_eq!((&lines[2][137..145], &lines[3 + i][1..17]), (" -999999", format!("{:>8}      -1", i + 1).as_str()));
    }
}

#[test]
fn counts_that_would_overflow() {
    for form in FORMS {
        let mut survey = valid_survey_of(&mut Rng::new(SEED + 6), form);
        let room = file_len(&survey);
        for count in [0, u64::MAX, u64::MAX - survey.members.len() as u64 + 1] {
            survey.storeys[0].count = count;
            assert_eq!(same_file(&survey, room), Some(Refusal::of_record(1)), "{count} members");
        }
    }
}

#[test]
fn a_survey_without_rows() {
    for header in worked_examples().map(|(survey, _)| survey.header) {
        for (storey_count, number) in [(0, 3), (1, 1)] {
            let survey = Survey { header: Header { storey_count, ..header }, ..Survey::default() };
            assert_eq!(same_file(&survey, 300), Some(Refusal::of_record(number)));
        }
    }
}

#[test]
fn a_header_with_a_missing_number_is_refused() {
    for (survey, _) in worked_examples() {
        let (header, storeys) = (header_numbers(&survey.header), storey_rows(&survey.storeys));
        let rows = member_rows(&survey.members).expect("good members");
        for n in 0..HEADER_NUMBERS {
            let call = |file: &mut Vec<u8>, out: &mut [u64]| raw::write(&header[..n], &storeys, &rows, file, out);
            // Without its count of storeys it is 1; without its form alone 3.
            let number = if n == HEADER_NUMBERS - 1 { 3 } else { 1 };
            assert_eq!(assert_left(raw::WRITE_VALUES, &pattern(file_len(&survey)), call), number, "B with {n} numbers");
        }
    }
}
