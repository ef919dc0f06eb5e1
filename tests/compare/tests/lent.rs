//! What each call leaves of the memory that it was lent: all of it where it is refused or `out` is too short, all but the front where it is
//! accepted. `llunareth_determine`, which has no refusal, is looked at in determine.rs.
use compare::{
    assert_left, assert_out_left, header_numbers, marked_rows, marks, member_numbers, member_rows, pattern, storey_numbers, storey_rows,
    worked_example, worked_example_in_cases, worked_examples, MemberRow, Room, StoreyRow,
};
use generator::{file_of, survey_lines, write_survey, Line};
use independent::lines::{cases_of, CASE_FORM, OLD_FORM};
use independent::{Member, Survey};
use llunareth::raw::{self, LINE_UNIT};

// ---- reading ----

fn changed(survey: Survey, change: impl FnOnce(&mut Vec<Line>)) -> Vec<u8> {
    let Survey { header, storeys, members } = survey;
    let mut lines = survey_lines(&header, &storeys, &members);
    change(&mut lines);
    file_of(&lines)
}

/// What the reading call returns for a file and so many rows.
fn read(file: &[u8], rows: (usize, usize)) -> u64 {
    let call = |lent: &mut (Vec<StoreyRow>, Vec<MemberRow>), out: &mut [u64]| raw::read(file, &mut lent.0, &mut lent.1, out);
    assert_left(raw::READ_VALUES, &marked_rows(rows.0, rows.1), call)
}

/// A file, rows, a refusal and its line.
type Refused = (Vec<u8>, (usize, usize), u64, u64);

fn assert_refused(refusals: impl IntoIterator<Item = Refused>) {
    for (file, rows, number, line) in refusals {
        assert_eq!(read(&file, rows), number + LINE_UNIT * line, "{number} at line {line}");
    }
}

const ROWS: (usize, usize) = (3, 4);

#[test]
fn every_refusal_of_a_file() {
    let file = |change: fn(&mut Vec<Line>)| changed(worked_example(), change);
    assert_refused([
        (b"".to_vec(), ROWS, 1, 1),
        (file(|l| l[2].set_raw(5, b"05")), ROWS, 2, 3),
        (file(|l| l[0].set(1, 95)), ROWS, 3, 1),
        (file(|l| drop(l[2].fields.pop())), ROWS, 1, 3),
        (file(|l| l[2].set(27, 2)), ROWS, 3, 3),
        (file(|l| l[2].set(3, 301)), ROWS, 4, 3),
        (file(|l| l[3].set(1, 1)), ROWS, 5, 4),
        (file(|l| l.push(l[3].clone())), ROWS, 6, 5),
        (file(|l| l[0].set(2, 30_001)), ROWS, 7, 1),
        (file(|_| ()), (0, 4), 8, 2),
        (file(|_| ()), (3, 1), 8, 4),
    ]);
}

/// The lines are: 1 B; 2 S; 3 M and 4 to 7 D; 8 M and 9 to 12 D.
#[test]
fn every_refusal_of_a_file_in_cases() {
    let file = |change: fn(&mut Vec<Line>)| changed(worked_example_in_cases(), change);
    assert_refused([
        (file(|l| drop(l.pop())), ROWS, 1, 12),
        (file(|l| l[3].set_raw(5, b"05")), ROWS, 2, 4),
        (file(|l| l[11].set(4, 0)), ROWS, 3, 12),
        (file(|l| drop(l[7].fields.pop())), ROWS, 1, 8),
        (file(|l| l[7].set(19, 2)), ROWS, 3, 8),
        (file(|l| l[7].set(3, 301)), ROWS, 4, 8),
        (file(|l| l[7].set(1, 1)), ROWS, 5, 8),
        (file(|l| l.push(l[11].clone())), ROWS, 6, 13),
        (file(|l| l[0].set(2, 30_001)), ROWS, 7, 1),
        (file(|_| ()), (0, 4), 8, 2),
        (file(|_| ()), (3, 1), 8, 8),
        (file(|l| l[11].set(1, 1)), ROWS, 12, 12),
    ]);
}

#[test]
fn an_accepted_file_fills_the_front() {
    for (survey, _) in worked_examples() {
        let (file, form) = (write_survey(&survey), survey.header.form);
        assert_eq!(read(&file, ROWS), 0);
        let ((mut storeys, mut members), mut out) = (marked_rows(3, 4), marks(11));
        raw::read(&file, &mut storeys, &mut members, &mut out);
        let (storey_marks, member_marks) = marked_rows(3, 4);
        let filled = member_rows(&survey.members).expect("good members");
        assert_eq!(storeys, [&storey_rows(&survey.storeys), &storey_marks[1..]].concat());
        assert_eq!(members, [&filled, &member_marks[2..]].concat());
        assert_eq!(out, [&[100, 9_000, 3, 0, 0, 1, form, 1, 2], &marks(11)[9..]].concat());
    }
}

// ---- a member ----

/// What is found of the worked example's first member: in its one case, and in each of four.
const MEMBER_FOUND: [[u64; 10]; 4] = [
    [2, 300_000, 259_090, 9_000, 12_500, 1, 35_000, 0, 1, 0],
    [2, 300_000, 259_090, 9_000, 12_500, 1, 35_000, 0, 1, 0],
    [2, 150_000, 259_090, 9_000, 12_500, 0, 35_000, 0, 0, 0],
    [2, 300_000, 259_090, 12_501, 12_500, 1, 35_000, 0, 1, 1],
];

#[test]
fn a_member_judged_and_refused() {
    for (survey, _) in worked_examples() {
        let (form, member) = (survey.header.form, survey.members[0]);
        let judge = |k, form, member: Member| {
            let numbers = member_numbers(&member).expect("stored numbers");
            assert_out_left(Room::of_member(form), |out| raw::judge_member(k, form, [false; 4], &numbers, out))
        };
        let damaged = Member { damage_kind: 5, ..member };
        let marked = Member { annex_e: 2, ..member };
        let narrow = Member { long_side: 299, ..member };
        assert_eq!((judge(95, form, member), judge(100, form, damaged), judge(100, form, marked), judge(100, form, narrow)), (3, 3, 3, 4));
        assert_eq!((judge(100, 3, member), judge(100, OLD_FORM + CASE_FORM - form, member), judge(100, form, member)), (3, 3, 0));
        let (mut out, put) = (marks(44), 10 * cases_of(form));
        raw::judge_member(100, form, [false; 4], &member_numbers(&member).expect("stored numbers"), &mut out);
        assert_eq!(out, [&MEMBER_FOUND.as_flattened()[..put], &marks(44)[put..]].concat());
    }
}

// ---- rows ----

/// The worked examples with each refusal of a building that rows can have, and as they are.
fn surveys() -> Vec<(u64, Survey, &'static str)> {
    let changes: [(u64, fn(&mut Survey)); 9] = [
        (1, |s| s.storeys[0].count = 3),
        (3, |s| s.storeys[0].shears[0] = 0),
        (3, |s| s.header.form = OLD_FORM + CASE_FORM - s.header.form),
        (3, |s| s.members[1].cases[3].m_e = 10_000_000),
        (3, |s| s.members[1].annex_e = 2),
        (4, |s| s.members[1].short_side = 301),
        (5, |s| s.members[1].number = 1),
        (7, |s| s.header.height = 30_001),
        (0, |_| ()),
    ];
    let with = |(mut survey, sheet): (Survey, _), (number, change): (u64, fn(&mut Survey))| {
        change(&mut survey);
        (number, survey, sheet)
    };
    worked_examples().into_iter().flat_map(|example| changes.map(|change| with(example.clone(), change))).collect()
}

/// What is found of the worked example's storey in a case: P, W, Risky, and by which rule.
fn storey_found(p: u64, w: u64, risky: u64) -> [u64; 11] {
    [75_000, 2, p, w, risky, 0, risky, 0, 0, 1_925_000, 11_000_000]
}

#[test]
fn a_storey_judged_and_refused() {
    let found = [storey_found(200, 1_000, 1), storey_found(200, 2_000, 0), storey_found(0, 1_000, 0), storey_found(900, 1_000, 1)];
    for (number, survey, _) in surveys() {
        let (storey, rows) = (storey_numbers(&survey.storeys[0]), member_rows(&survey.members).expect("stored numbers"));
        let form = survey.header.form;
        let judge = |k, form| assert_out_left(Room::of_storey(form), |out| raw::judge_storey(k, form, &storey, &rows, out));
        assert_eq!(judge(100, form), if number == 7 { 0 } else { number }, "{survey:?}");
        let refused = if number == 1 { 1 } else { 3 };
        assert_eq!((judge(95, form), judge(100, 0), judge(100, 3)), (refused, refused, refused));
        let (mut out, put) = (marks(50), 1 + 11 * cases_of(form));
        if raw::judge_storey(100, form, &storey, &rows, &mut out) == 0 {
            assert_eq!(out, [&[1], &found.as_flattened()[..put - 1], &marks(50)[put..]].concat());
        }
    }
}

#[test]
fn a_building_judged_and_refused() {
    for (number, survey, _) in surveys() {
        let (header, storeys) = (header_numbers(&survey.header), storey_rows(&survey.storeys));
        let rows = member_rows(&survey.members).expect("stored numbers");
        let returned = assert_out_left(raw::BUILDING_VALUES, |out| raw::judge_building(&header, &storeys, &rows, out));
        assert_eq!(returned, number, "{survey:?}");
        let mut out = marks(5);
        if raw::judge_building(&header, &storeys, &rows, &mut out) == 0 {
            assert_eq!(out, [&[0, 1, 1, 1], &marks(5)[4..]].concat());
        }
    }
}

#[test]
fn a_report_written_and_refused() {
    for (number, survey, text) in surveys() {
        let (header, storeys) = (header_numbers(&survey.header), storey_rows(&survey.storeys));
        let (rows, len) = (member_rows(&survey.members).expect("stored numbers"), text.len());
        let call = |sheet: &mut Vec<u8>, out: &mut [u64]| raw::report(&header, &storeys, &rows, sheet, out);
        assert_eq!(assert_left(raw::REPORT_VALUES, &pattern(len + 28), call), number, "{survey:?}");
        assert_eq!(assert_left(raw::REPORT_VALUES, &pattern(len - 1), call), if number == 0 { 9 } else { number }, "{survey:?}");
        let (mut sheet, mut out) = (pattern(len + 28), marks(3));
        if call(&mut sheet, &mut out) == 0 {
            assert_eq!(sheet, [text.as_bytes(), &pattern(len + 28)[len..]].concat());
            assert_eq!(out, [&[len as u64], &marks(3)[1..]].concat());
        }
    }
}

#[test]
fn a_file_written_and_refused() {
    for (number, survey, _) in surveys() {
        let example = write_survey(&survey);
        let (header, storeys) = (header_numbers(&survey.header), storey_rows(&survey.storeys));
        let (rows, len) = (member_rows(&survey.members).expect("stored numbers"), example.len());
        let call = |file: &mut Vec<u8>, out: &mut [u64]| raw::write(&header, &storeys, &rows, file, out);
        assert_eq!(assert_left(raw::WRITE_VALUES, &pattern(len + 40), call), number, "{survey:?}");
        assert_eq!(assert_left(raw::WRITE_VALUES, &pattern(len - 1), call), if number == 0 { 11 } else { number }, "{survey:?}");
        let (mut file, mut out) = (pattern(len + 40), marks(3));
        if call(&mut file, &mut out) == 0 {
            assert_eq!(file, [&example, &pattern(len + 40)[len..]].concat());
            assert_eq!(out, [&[len as u64], &marks(3)[1..]].concat());
        }
    }
}

// ---- numbers that are not given ----

/// Refused by 3, a count that is not given beside its rows by 1.
#[test]
fn records_that_lack_numbers() {
    for (survey, _) in worked_examples() {
        let (form, header, storeys) = (survey.header.form, header_numbers(&survey.header), storey_rows(&survey.storeys));
        let (storey, rows) = (storey_numbers(&survey.storeys[0]), member_rows(&survey.members).expect("stored numbers"));
        let member = member_numbers(&survey.members[0]).expect("stored numbers");
        let out = &mut marks(raw::STOREY_VALUES);
        for given in 0..header.len() {
            let refused = if given < 6 { 1 } else { 3 };
            assert_eq!((raw::header_fault(&header[..given]), raw::judge_building(&header[..given], &storeys, &rows, out)), (3, refused));
        }
        for given in 0..storey.len() {
            assert_eq!((raw::storey_fault(form, &storey[..given]), raw::judge_storey(100, form, &storey[..given], &rows, out)), (3, 1));
        }
        for given in 0..member.len() {
            assert_eq!((raw::member_fault(form, &member[..given]), raw::judge_member(100, form, [false; 4], &member[..given], out)), (3, 3));
        }
    }
}

// ---- where bytes stand ----

/// Bytes at an address that is so much above one that 8 divides.
fn at_offset(room: &mut [u64], offset: usize, len: usize) -> &mut [u8] {
    // Sound: the bytes lie within the words, and any byte may stand there.
    let bytes = unsafe { std::slice::from_raw_parts_mut(room.as_mut_ptr().cast::<u8>(), 8 * room.len()) };
    &mut bytes[offset..offset + len]
}

/// What is read and printed for a file whose bytes stand at an offset, and the file and the sheet written at it.
fn at(offset: usize, file: &[u8]) -> (u64, Vec<u64>, Vec<u8>, Vec<u8>, Vec<u8>) {
    let (mut from, mut to) = (vec![0u64; 10_000], vec![0u64; 10_000]);
    let from = at_offset(&mut from, offset, file.len());
    from.copy_from_slice(file);
    let ((mut storeys, mut members), mut out) = (marked_rows(3, 4), marks(raw::READ_VALUES));
    let returned = raw::read(from, &mut storeys, &mut members, &mut out);
    let printed = raw::determine(from, at_offset(&mut to, offset, 40_000));
    let printed = at_offset(&mut to, offset, printed).to_vec();
    let (storeys, members) = (&storeys[..out[7] as usize], &members[..out[8] as usize]);
    let mut lengths = [0, 0];
    raw::report(&out[..7], storeys, members, at_offset(&mut to, offset, 40_000), &mut lengths[..1]);
    let sheet = at_offset(&mut to, offset, lengths[0] as usize).to_vec();
    raw::write(&out[..7], storeys, members, at_offset(&mut to, offset, 40_000), &mut lengths[1..]);
    let written = at_offset(&mut to, offset, lengths[1] as usize).to_vec();
    (returned, out, printed, sheet, written)
}

/// At an address that 8 divides and at the seven after it.
#[test]
fn bytes_at_any_address() {
    for (survey, sheet) in worked_examples() {
        let file = write_survey(&survey);
        for offset in 0..8 {
            let (returned, out, printed, reported, written) = at(offset, &file);
            assert_eq!((returned, out[7], out[8]), (0, 1, 2), "offset {offset}");
            assert_eq!((printed, reported, written), (sheet.as_bytes().to_vec(), sheet.as_bytes().to_vec(), file.clone()), "offset {offset}");
        }
    }
}
