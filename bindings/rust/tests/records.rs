//! Records by the names of their fields: their numbers, the rows that a file is read into, and how a refusal is told.
use llunareth::{Header, LoadCase, Member, Refusal, Storey, CASES, CASE_NUMBERS, FOUR_CASES, HEADER_NUMBERS, MEMBER_NUMBERS, OLD_FORM, STOREY_NUMBERS};
use llunareth::{SHEET_MOST, ZERO_FORCE};

// Each record from its numbers in the order of its fields.

fn header([knowledge, height, storeys, tilt1, tilt2, count, form]: [u64; HEADER_NUMBERS]) -> Header {
    Header { knowledge, height, storeys, tilt1, tilt2, count, form }
}

fn storey([number, one, two, three, four, count]: [u64; STOREY_NUMBERS]) -> Storey {
    Storey { number, shears: [one, two, three, four], count }
}

fn load_case([nk, me, mp, ve, vr, shear, rotation, drift]: [u64; CASE_NUMBERS]) -> LoadCase {
    LoadCase { nk, me, mp, ve, vr, shear, rotation, drift }
}

/// How many numbers of a member come before its cases.
const ONCE: usize = MEMBER_NUMBERS - CASES * CASE_NUMBERS;

fn member(numbers: [u64; MEMBER_NUMBERS]) -> Member {
    let (once, cases) = numbers.split_at(ONCE);
    let [
        number, long, short, area, fcm, fctm, fyw, depth, height, spacing, core, hoops, hooks, zone, strengthened, factor, damage, nd, annex_e,
    ] = <[u64; ONCE]>::try_from(once).expect("so many numbers");
    let (cases, _) = cases.as_chunks::<CASE_NUMBERS>();
    let cases = [cases[0], cases[1], cases[2], cases[3]].map(load_case);
    Member {
        number, long, short, area, fcm, fctm, fyw, depth, height, spacing, core, hoops, hooks, zone, strengthened, factor, damage, nd, annex_e, cases,
    }
}

/// 1, 2, 3 and so on: each field holds its own place in the record.
fn places<const N: usize>() -> [u64; N] {
    std::array::from_fn(|j| j as u64 + 1)
}

#[test]
fn a_header() {
    assert_eq!((Header::from(places()), <[u64; HEADER_NUMBERS]>::from(header(places()))), (header(places()), places()));
}

#[test]
fn a_storey() {
    assert_eq!((Storey::from(places()), <[u64; STOREY_NUMBERS]>::from(storey(places()))), (storey(places()), places()));
}

#[test]
fn a_load_case() {
    assert_eq!((LoadCase::from(places()), <[u64; CASE_NUMBERS]>::from(load_case(places()))), (load_case(places()), places()));
    assert_eq!(<[u64; CASE_NUMBERS]>::from(LoadCase::NONE), [ZERO_FORCE, 0, 0, 0, 0, 0, 0, 0]);
}

#[test]
fn a_member() {
    assert_eq!((Member::from(places()), <[u64; MEMBER_NUMBERS]>::from(member(places()))), (member(places()), places()));
}

/// The samples in which no two fields of a record hold the same number, of the old form and in four cases.
fn samples() -> [(u64, Vec<u8>); 2] {
    let sample = |name: &str| std::fs::read(format!("../../samples/{name}.survey")).expect("a sample");
    [(OLD_FORM, sample("every-field-apart")), (FOUR_CASES, sample("cases-every-field-apart"))]
}

/// The numbers of a line field by field: eight columns each, after the tag.
fn fields(line: &str) -> Vec<i64> {
    let field = |j: usize| line[1 + 8 * j..9 + 8 * j].trim().parse().expect("a number");
    (0..line.len() / 8).map(field).collect()
}

/// A field as it is stored.
fn stored(value: i64) -> u64 {
    value.try_into().expect("not negative")
}

/// A force as it is stored.
fn stored_force(value: i64) -> u64 {
    ZERO_FORCE.checked_add_signed(value).expect("a stored number")
}

/// The numbers of a load case from its fields.
fn case_numbers(fields: &[i64]) -> Vec<u64> {
    [&[stored_force(fields[0])], &fields[1..].iter().map(|&v| stored(v)).collect::<Vec<_>>()[..]].concat()
}

/// The numbers of the records in a file, by its lines.
#[derive(Default)]
struct Stored {
    header: [u64; HEADER_NUMBERS],
    storeys: Vec<[u64; STOREY_NUMBERS]>,
    members: Vec<[u64; MEMBER_NUMBERS]>,
}

fn stored_records(form: u64, file: &[u8]) -> Stored {
    let text = std::str::from_utf8(file).expect("text");
    let mut records = Stored::default();
    let mut members: Vec<Vec<u64>> = Vec::new();
    for line in text.lines() {
        let fields = fields(line);
        match line.as_bytes()[0] {
            b'B' => {
                let numbers: Vec<u64> = fields.iter().map(|&v| stored(v)).chain([form]).collect();
                records.header = numbers.try_into().expect("so many numbers");
            }
            b'S' => {
                let mut numbers: Vec<u64> = fields.iter().map(|&v| stored(v)).collect();
                let lacking = STOREY_NUMBERS - numbers.len();
                numbers.splice(numbers.len() - 1..numbers.len() - 1, vec![0; lacking]);
                records.storeys.push(numbers.try_into().expect("so many numbers"));
            }
            b'M' => {
                // Before N_D, N_D, in the old form the case, and the last field.
                let (before, rest) = fields.split_at(ONCE - 2);
                let (case, last) = rest[1..].split_at(rest.len() - 2);
                let mut numbers: Vec<u64> = before.iter().map(|&v| stored(v)).collect();
                numbers.extend([stored_force(rest[0]), stored(last[0])]);
                if form == OLD_FORM {
                    numbers.extend(case_numbers(case));
                    numbers.extend([<[u64; CASE_NUMBERS]>::from(LoadCase::NONE); CASES - 1].as_flattened());
                }
                members.push(numbers);
            }
            _ => members.last_mut().expect("a member").extend(case_numbers(&fields[1..])),
        }
    }
    records.members = members.into_iter().map(|numbers| numbers.try_into().expect("so many numbers")).collect();
    records
}

/// The 8-byte words of rows, one after another in memory.
fn words<T>(rows: &[T]) -> &[u64] {
    // Sound: the rows are u64, one after another.
    unsafe { std::slice::from_raw_parts(rows.as_ptr().cast(), std::mem::size_of_val(rows) / 8) }
}

/// Panics unless every two of the first fields differ in some record.
fn assert_apart<const N: usize>(records: &[[u64; N]], count: usize) {
    for j in 0..count {
        for i in 0..j {
            assert!(records.iter().any(|numbers| numbers[i] != numbers[j]), "numbers {} and {}", i + 1, j + 1);
        }
    }
}

#[test]
fn each_field_is_read_into_its_own_place() {
    for (form, file) in samples() {
        let Stored { header: in_header, storeys, members } = stored_records(form, &file);
        assert_apart(&[in_header], HEADER_NUMBERS - 1);
        if form == FOUR_CASES {
            assert_apart(&storeys, STOREY_NUMBERS);
            assert_apart(&members, MEMBER_NUMBERS);
        } else {
            assert_apart(&members, ONCE + CASE_NUMBERS);
        }
        let (mut storey_rows, mut member_rows) = ([Storey::default(); 2], [Member::default(); 3]);
        let survey = llunareth::read(&file, &mut storey_rows, &mut member_rows).expect("accepted");
        assert_eq!(survey.header, header(in_header));
        assert_eq!(words(survey.storeys), storeys.as_flattened());
        assert_eq!(words(survey.members), members.as_flattened());
        assert_eq!(survey.storeys, storeys.into_iter().map(storey).collect::<Vec<_>>());
        assert_eq!(survey.members, members.into_iter().map(member).collect::<Vec<_>>());
    }
}

/// `determine` takes no rows from its caller, so it tells what rows filled in by name must give.
#[test]
fn rows_by_name_give_the_sheet_of_their_file() {
    for (form, file) in samples() {
        let records = stored_records(form, &file);
        let storeys: Vec<Storey> = records.storeys.into_iter().map(storey).collect();
        let members: Vec<Member> = records.members.into_iter().map(member).collect();
        let (mut sheet, mut text) = (vec![0; SHEET_MOST], vec![0; SHEET_MOST]);
        let written = llunareth::report(&header(records.header), &storeys, &members, &mut sheet).expect("accepted");
        assert_eq!(written, llunareth::determine(&file, &mut text));
    }
}

#[test]
fn a_refusal() {
    let told = |number, line| Refusal { number, line }.to_string();
    assert_eq!((told(3, 4), told(11, 0)), ("refused: 3 at line 4".into(), "refused: 11".into()));
}
