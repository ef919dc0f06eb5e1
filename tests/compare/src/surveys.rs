//! The sample surveys, each by a description: a building by its members' fields, a refused survey by the one change that spoils a good one.
//! Forces are in 0.1 kN, moments in 0.1 kNm, sides in mm; docs/FORMAT.md has the unit of every field.
mod four_cases;
mod old_form;
mod one_reason;

use crate::{worked_example, worked_example_in_cases};
use generator::{file_of, survey_in_case, survey_lines, write_survey, Line};
use independent::{Header, Member, Storey, Survey};
use std::mem::swap;

/// The name and the bytes of every sample survey.
pub fn all() -> Vec<(&'static str, Vec<u8>)> {
    let accepted = accepted().map(|(name, survey)| (name, write_survey(&survey)));
    accepted.into_iter().chain(refused()).collect()
}

fn accepted() -> [(&'static str, Survey); 25] {
    let first_case = |survey: Survey| survey_in_case(0, &survey);
    [
        ("plain-block", old_form::plain_block()),
        ("walls", old_form::walls()),
        ("strengthened-column-first", first_case(four_cases::strengthened_column_first())),
        ("worked-example", worked_example()),
        ("every-field-apart", first_case(four_cases::every_field_apart())),
        ("cases-walls-one-direction", four_cases::walls_one_direction()),
        ("cases-risky-in-case-3", four_cases::risky_in_case_3()),
        ("cases-strengthened-column-first", four_cases::strengthened_column_first()),
        ("cases-worked-example", worked_example_in_cases()),
        ("cases-every-field-apart", four_cases::every_field_apart()),
        ("class-1-column-a", old_form::column_a()),
        ("class-2-column-b", old_form::column_b()),
        ("class-3-column-c", old_form::column_c()),
        ("class-4-wall-a", old_form::wall_a()),
        ("class-5-wall-b", old_form::wall_b()),
        ("strengthened-wall-not-detailed", old_form::strengthened_wall(0)),
        ("strengthened-wall-detailed", old_form::strengthened_wall(1)),
        ("cases-strengthened-wall", four_cases::strengthened_wall()),
        ("core-walls-class-a", old_form::core_walls(7_000)),
        ("core-walls-class-b", old_form::core_walls(9_000)),
        ("risky-by-damage", one_reason::damage()),
        ("risky-by-tilt", one_reason::tilt()),
        ("risky-by-axial-load", one_reason::axial_load()),
        ("tension", first_case(four_cases::tension())),
        ("cases-tension", four_cases::tension()),
    ]
}

/// The field of an M line that is written with a comma, and the field of a D line that is repeated.
const F_CM: usize = 5;
const CASE_NUMBER: usize = 1;

fn refused() -> [(&'static str, Vec<u8>); 10] {
    let block = &old_form::plain_block();
    let exchange = |m: &mut Member| swap(&mut m.long_side, &mut m.short_side);
    let eleven = Header { height: 33_000, storeys: 11, ..block.header };
    let in_cases = &four_cases::risky_in_case_3();
    [
        ("refusal-1-column-left-out", lines_changed(block, |lines| drop(lines.remove(6 - 1)))),
        ("refusal-1-without-last-field", lines_changed(block, |lines| without_last_field(lines))),
        ("refusal-2-decimal-comma", lines_changed(block, |lines| lines[3 - 1].set_raw(F_CM, b"12,0"))),
        ("refusal-3-no-moment-capacity", records_changed(block, |survey| survey.members[4].cases[0].m_p = 0)),
        ("refusal-4-sides-exchanged", records_changed(block, |survey| exchange(&mut survey.members[5]))),
        ("refusal-5-number-repeated", records_changed(block, |survey| survey.members[3].number = 3)),
        ("refusal-6-line-after-the-last", lines_changed(block, |lines| lines[16 - 1].end = b"\n\n".to_vec())),
        ("refusal-7-eleven-storeys", records_changed(block, |survey| survey.header = eleven)),
        ("refusal-8-too-long", write_survey(&old_form::plain_block_times(26))),
        ("refusal-12-case-number-repeated", lines_changed(in_cases, |lines| lines[15 - 1].set(CASE_NUMBER, 1))),
    ]
}

/// The file of a survey after a change of its records; members are counted from 0 through all storeys.
fn records_changed(survey: &Survey, change: impl FnOnce(&mut Survey)) -> Vec<u8> {
    let mut survey = survey.clone();
    change(&mut survey);
    write_survey(&survey)
}

/// The file of a survey after a change that its records cannot hold; line n is `lines[n - 1]`.
fn lines_changed(survey: &Survey, change: impl FnOnce(&mut Vec<Line>)) -> Vec<u8> {
    let mut lines = survey_lines(&survey.header, &survey.storeys, &survey.members);
    change(&mut lines);
    file_of(&lines)
}

/// Every `M` line as it was before its last field, "detailed to annex E".
fn without_last_field(lines: &mut [Line]) {
    lines.iter_mut().filter(|line| line.tag == b'M').for_each(|line| drop(line.fields.pop()));
}

/// The building of these floors: storeys, and the members of each, are numbered from 1, and a storey's shear is the total V of its members.
fn building(header: Header, floors: &[Vec<Member>]) -> Survey {
    let mut survey = Survey { header: Header { storey_count: floors.len() as u64, ..header }, ..Survey::default() };
    for (number, floor) in (1..).zip(floors) {
        let shear = |i: usize| floor.iter().map(|m| m.cases[i].v).sum();
        survey.storeys.push(Storey { number, shears: std::array::from_fn(shear), count: floor.len() as u64 });
        survey.members.extend((1..).zip(floor).map(|(number, m)| Member { number, ..*m }));
    }
    survey
}
