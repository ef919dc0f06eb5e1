//! Records handed to the calls have each field in its own place: both programs agree on surveys that would be answered otherwise if any two
//! fields were exchanged.
use compare::{header_numbers, header_of, member_numbers, member_of, same_building, same_report, same_storey, storey_numbers, storey_of};
use generator::{sheet_len, valid_survey_of, Rng};
use independent::lines::CASE_FORM;
use independent::{Member, Storey, Survey};
use llunareth::{HEADER_NUMBERS, MEMBER_NUMBERS, STOREY_NUMBERS};

const SEED: u64 = 20_260_121;
const SURVEYS: usize = 3_000;

/// A kind of record and two of its fields, counted from 1.
type Exchange = (char, usize, usize);

fn exchanges(tag: char, fields: usize) -> Vec<Exchange> {
    (2..=fields).flat_map(|j| (1..j).map(move |i| (tag, i, j))).collect()
}

/// The survey with two fields exchanged in every record of a kind.
fn exchanged(survey: &Survey, (tag, i, j): Exchange) -> Survey {
    let mut survey = survey.clone();
    let swap = |numbers: &mut [u64]| numbers.swap(i - 1, j - 1);
    match tag {
        'B' => {
            let mut numbers = header_numbers(&survey.header);
            swap(&mut numbers);
            survey.header = header_of(&numbers);
        }
        'S' => survey.storeys.iter_mut().for_each(|s| {
            let mut numbers = storey_numbers(s);
            swap(&mut numbers);
            *s = storey_of(&numbers);
        }),
        _ => survey.members.iter_mut().for_each(|m| {
            let mut numbers = member_numbers(m).expect("stored numbers");
            swap(&mut numbers);
            *m = member_of(&numbers);
        }),
    }
    survey
}

/// The exchanges that change no answer to the surveys.
fn untold<A: PartialEq>(mut left: Vec<Exchange>, surveys: &[Survey], answer: impl Fn(&Survey) -> A) -> Vec<Exchange> {
    for survey in surveys {
        let given = answer(survey);
        left.retain(|&exchange| answer(&exchanged(survey, exchange)) == given);
    }
    left
}

/// Surveys in four cases, where every field holds something.
fn surveys() -> Vec<Survey> {
    let mut rng = Rng::new(SEED);
    (0..SURVEYS).map(|_| valid_survey_of(&mut rng, CASE_FORM)).collect()
}

fn all_exchanges() -> Vec<Exchange> {
    [exchanges('B', HEADER_NUMBERS), exchanges('S', STOREY_NUMBERS), exchanges('M', MEMBER_NUMBERS)].concat()
}

/// The larger tilt counts, whichever it is.
const TILTS: Exchange = ('B', 4, 5);

#[test]
fn records_handed_to_the_call_on_a_building() {
    let surveys = surveys();
    for survey in &surveys {
        assert_eq!(same_building(survey), None);
    }
    let answer = |s: &Survey| independent::judge_building(&s.header, &s.storeys, &s.members);
    assert_eq!(untold(all_exchanges(), &surveys, answer), [TILTS]);
}

#[test]
fn records_handed_to_the_report() {
    let surveys = surveys();
    for survey in &surveys {
        assert_eq!(same_report(survey, sheet_len(survey)), None);
    }
    let answer = |s: &Survey| independent::report(&s.header, &s.storeys, &s.members, usize::MAX);
    assert_eq!(untold(all_exchanges(), &surveys, answer), [TILTS]);
}

/// The first storey, with as many members as it has.
fn first(survey: &Survey) -> (u64, Storey, &[Member]) {
    (survey.header.knowledge, survey.storeys[0], &survey.members)
}

#[test]
fn records_handed_to_the_call_on_a_storey() {
    let mut surveys = surveys();
    for survey in &mut surveys {
        survey.members.truncate(survey.storeys[0].count as usize);
        let (k, s, own) = first(survey);
        assert_eq!(same_storey(k, CASE_FORM, &s, own), None);
    }
    let answer = |survey: &Survey| {
        let (k, s, own) = first(survey);
        independent::judge_storey(k, CASE_FORM, &s, own)
    };
    assert_eq!(untold([exchanges('S', STOREY_NUMBERS), exchanges('M', MEMBER_NUMBERS)].concat(), &surveys, answer), []);
}
