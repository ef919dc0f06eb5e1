//! The reading call and the checks of records against the independent program.
use compare::{
    at_edges, header_fault, header_numbers, header_of, member_fault, member_numbers, member_of, read, same_member, storey_fault, storey_numbers,
    storey_of, worked_example, FILE_REFUSALS, FORMS, REFUSALS,
};
use generator::{
    any_file, any_form, check_header, check_member, check_storey, damage, edge_member, file_of, is_wall, lent_rows, number_field, survey_lines,
    valid_survey, valid_survey_of, wild_header, wild_member, wild_storey, write_survey, Line, Rng,
};
use independent::lines::{CASE_FORM, LOAD_CASE, MEMBER, OLD_FORM};
use independent::{Refusal, Survey};
use llunareth::{raw, LoadCase, HEADER_NUMBERS, MEMBER_NUMBERS, STOREY_NUMBERS};

const SEED: u64 = 20_260_115;

fn same(bytes: &[u8], storey_rows: usize, member_rows: usize) -> Option<Refusal> {
    let proved = read(bytes, storey_rows, member_rows);
    let independent = independent::read(bytes, storey_rows, member_rows);
    assert_eq!(proved, independent, "{} rows, {} rows:\n{}", storey_rows, member_rows, String::from_utf8_lossy(bytes));
    proved.err()
}

#[test]
fn generated_files_good_and_damaged() {
    let mut rng = Rng::new(SEED);
    let mut seen = [0u32; REFUSALS];
    for _ in 0..20_000 {
        let bytes = any_file(&mut rng);
        let (storey_rows, member_rows) = lent_rows(&mut rng, &bytes);
        match same(&bytes, storey_rows, member_rows) {
            Some(refusal) => seen[refusal.number as usize] += 1,
            None => seen[0] += 1,
        }
    }
    assert!(seen[0] >= 30 && FILE_REFUSALS.iter().all(|&n| seen[n] >= 30), "each refusal of a file and acceptance come up: {seen:?}");
}

#[test]
fn long_files() {
    let mut rng = Rng::new(SEED + 1);
    for _ in 0..300 {
        let bytes = write_survey(&valid_survey(&mut rng));
        same(&bytes, 10, 320);
        same(&damage(&mut rng, &bytes), 10, 320);
    }
}

/// The longest file that is accepted, its last member without a row, and damaged.
#[test]
fn the_longest_files() {
    let mut rng = Rng::new(SEED + 4);
    for form in FORMS {
        let bytes = write_survey(&at_edges(&mut rng, form, 10));
        let members = if form == CASE_FORM { 5 * 2_000 } else { 2_000 };
        let last = 1 + 10 + members - if form == CASE_FORM { 4 } else { 0 };
        assert_eq!(same(&bytes, 10, 2_000), None);
        refused(&bytes, (10, 1_999), 8, last);
        for _ in 0..5 {
            same(&damage(&mut rng, &bytes), 10, 2_000);
        }
    }
}

#[test]
fn every_length_of_a_small_file() {
    for form in FORMS {
        let bytes = write_survey(&small(form));
        for n in 0..=bytes.len() {
            same(&bytes[..n], 2, 3);
        }
        for at in 0..bytes.len() {
            for byte in [0, b'\n', b' ', b'-', b'0', b'9', b'B', b'S', b'M', b'D', 255] {
                let mut changed = bytes.clone();
                changed[at] = byte;
                same(&changed, 2, 3);
            }
        }
    }
}

/// A survey of two storeys, the first with one member, the second with two.
fn small(form: u64) -> Survey {
    let mut rng = Rng::new(SEED + 2);
    loop {
        let survey = valid_survey_of(&mut rng, form);
        let counts: Vec<u64> = survey.storeys.iter().map(|s| s.count).collect();
        if counts == [1, 2] {
            return survey;
        }
    }
}

fn lines(form: u64) -> Vec<Line> {
    let s = small(form);
    survey_lines(&s.header, &s.storeys, &s.members)
}

fn with(form: u64, change: impl FnOnce(&mut Vec<Line>)) -> Vec<u8> {
    let mut lines = lines(form);
    change(&mut lines);
    file_of(&lines)
}

fn refused(bytes: &[u8], rows: (usize, usize), number: u8, line: u64) {
    assert_eq!(same(bytes, rows.0, rows.1), Some(Refusal::at(number, line)));
}

const ROWS: (usize, usize) = (2, 3);

#[test]
fn each_refusal_at_its_line() {
    let old = |change: fn(&mut Vec<Line>)| with(OLD_FORM, change);
    refused(b"", ROWS, 1, 1);
    refused(&old(|l| l[2].set_raw(5, b"0")), ROWS, 3, 3);
    refused(&old(|l| l[2].set_raw(5, b"05")), ROWS, 2, 3);
    refused(&old(|l| l[0].set(1, 95)), ROWS, 3, 1);
    refused(&old(|l| l[2].set(3, 99_999)), ROWS, 4, 3);
    let number = small(OLD_FORM).storeys[0].number;
    refused(&with(OLD_FORM, |l| l[3].set(1, number.into())), ROWS, 5, 4);
    refused(&old(|l| l.push(l[5].clone())), ROWS, 6, 7);
    refused(&old(|l| l[0].set(2, 30_001)), ROWS, 7, 1);
    refused(&old(|_| ()), (1, 3), 8, 4);
    refused(&old(|_| ()), (2, 2), 8, 6);
}

/// In four cases the lines are: 1 B; 2 S; 3 M and 4 to 7 D; 8 S; 9 M and 10 to 13 D; 14 M and 15 to 18 D.
#[test]
fn each_refusal_at_its_line_in_cases() {
    let cases = |change: fn(&mut Vec<Line>)| with(CASE_FORM, change);
    assert_eq!(lines(CASE_FORM).len(), 18);
    refused(&cases(|l| l[4].tag = b'M'), ROWS, 1, 5);
    refused(&cases(|l| drop(l[4].fields.pop())), ROWS, 1, 5);
    refused(&cases(|l| l[4].set_raw(5, b"05")), ROWS, 2, 5);
    refused(&cases(|l| l[17].set(4, 0)), ROWS, 3, 18);
    refused(&cases(|l| l[1].set(3, 0)), ROWS, 3, 2);
    refused(&cases(|l| l[8].set(3, 99_999)), ROWS, 4, 9);
    let (storey, member) = (small(CASE_FORM).storeys[0].number, small(CASE_FORM).members[1].number);
    refused(&with(CASE_FORM, |l| l[7].set(1, storey.into())), ROWS, 5, 8);
    refused(&with(CASE_FORM, |l| l[13].set(1, member.into())), ROWS, 5, 14);
    refused(&cases(|l| l.push(l[17].clone())), ROWS, 6, 19);
    refused(&cases(|l| l[0].set(3, 11)), ROWS, 7, 1);
    refused(&cases(|_| ()), (1, 3), 8, 8);
    refused(&cases(|_| ()), (2, 2), 8, 14);
    refused(&cases(|l| l[5].set(1, 4)), ROWS, 12, 6);
}

/// 12 at every D line: another number from 1 to 4, two of them exchanged, one of them doubled, one left out before the last.
#[test]
fn case_numbers_at_every_place() {
    let places = [3, 4, 5, 6, 9, 10, 11, 12, 14, 15, 16, 17];
    for (at, line) in places.into_iter().map(|at| (at, at as u64 + 1)) {
        let due = lines(CASE_FORM)[at].fields[0].clone();
        for number in (1..=4).filter(|&number| number_field(number) != due) {
            refused(&with(CASE_FORM, |l| l[at].set(1, number)), ROWS, 12, line);
        }
        for number in [0, 5, 9_999_999] {
            refused(&with(CASE_FORM, |l| l[at].set(1, number)), ROWS, 3, line);
        }
        refused(&with(CASE_FORM, |l| l[at].set_raw(1, b"-1")), ROWS, 2, line);
        let is_last = due == number_field(4);
        if !is_last {
            refused(&with(CASE_FORM, |l| l.swap(at, at + 1)), ROWS, 12, line);
            refused(&with(CASE_FORM, |l| l.insert(at, l[at].clone())), ROWS, 12, line + 1);
            refused(&with(CASE_FORM, |l| drop(l.remove(at))), ROWS, 12, line);
        }
    }
}

/// 12 comes after every field of its line, and before any later line.
#[test]
fn a_case_number_after_its_lines_fields() {
    let wrong = |change: fn(&mut Vec<Line>)| {
        with(CASE_FORM, |l| {
            l[5].set(1, 2);
            change(l);
        })
    };
    refused(&wrong(|_| ()), ROWS, 12, 6);
    refused(&wrong(|l| l[5].set(6, 0)), ROWS, 3, 6);
    refused(&wrong(|l| l[5].set_raw(9, b"01")), ROWS, 2, 6);
    refused(&wrong(|l| l[6].set_raw(2, b"01")), ROWS, 12, 6);
    refused(&wrong(|l| l.truncate(6)), ROWS, 12, 6);
    refused(&wrong(|l| l[2].set(3, 99_999)), ROWS, 4, 3);
    refused(&wrong(|l| l[1].set(1, 0)), ROWS, 3, 2);
}

/// A file cut after each of its lines lacks the next; with a line left out the next one stands in its place.
#[test]
fn absent_lines_at_every_place() {
    for form in FORMS {
        let lines = lines(form);
        for at in 0..lines.len() {
            refused(&file_of(&lines[..at]), ROWS, 1, at as u64 + 1);
            assert!(same(&with(form, |l| drop(l.remove(at))), 2, 3).is_some(), "without line {}", at + 1);
        }
    }
}

/// The field "detailed to annex E" is the last of every M line, 27 in the old form and 19 in cases: 0 or 1, else 3; another writing is 2; an M line
/// that ends before it, as files had them before, is 1, and so is one with a field after it.
#[test]
fn the_last_field_of_every_member() {
    for (form, last, length) in [(OLD_FORM, 27, 210), (CASE_FORM, 19, 146)] {
        let good = lines(form);
        let members: Vec<usize> = (0..good.len()).filter(|&at| good[at].tag == b'M').collect();
        assert_eq!(members.len(), 3);
        for (at, line) in members.iter().map(|&at| (at, at as u64 + 1)) {
            for mark in [0, 1] {
                assert_eq!(same(&with(form, |l| l[at].set(last, mark)), 2, 3), None);
            }
            for value in [2, 3, 10, 100, 9_999_999] {
                refused(&with(form, |l| l[at].set(last, value)), ROWS, 3, line);
            }
            for text in ["", "x", "-1", "-0", "+1", "00", "01", "1 ", "1.0", "0,0", "12345678", "\0"] {
                refused(&with(form, |l| l[at].set_raw(last, text.as_bytes())), ROWS, 2, line);
            }
            assert_eq!(with(form, |l| drop(l[at].fields.pop())).len(), file_of(&good).len() - 8);
            refused(&with(form, |l| drop(l[at].fields.pop())), ROWS, 1, line);
            refused(&with(form, |l| l[at].fields.push(number_field(0))), ROWS, 1, line);
        }
        let before = with(form, |l| members.iter().for_each(|&at| drop(l[at].fields.pop())));
        assert_eq!(before.split(|&b| b == b'\n').nth(2).map(|line| line.len() + 1), Some(length));
        refused(&before, ROWS, 1, 3);
    }
}

/// It is looked at after all other fields, and before 4 and 5.
#[test]
fn the_last_field_in_the_order_of_refusals() {
    for (form, last, later) in [(OLD_FORM, 27, 5), (CASE_FORM, 19, 13)] {
        let wrong = |change: &dyn Fn(&mut Line)| {
            with(form, |l| {
                l[later].set(last, 2);
                change(&mut l[later]);
            })
        };
        let (line, number) = (later as u64 + 1, small(form).members[1].number);
        refused(&wrong(&|_| ()), ROWS, 3, line);
        refused(&wrong(&|m| m.set_raw(last - 1, b"01")), ROWS, 2, line);
        refused(&wrong(&|m| m.set_raw(5, b"05")), ROWS, 2, line);
        refused(&wrong(&|m| m.set_raw(last, b"02")), ROWS, 2, line);
        refused(&wrong(&|m| m.set(3, 99_999)), ROWS, 3, line);
        refused(&wrong(&|m| m.set(1, number.into())), ROWS, 3, line);
        refused(&wrong(&|_| ()), (2, 2), 8, line);
    }
}

/// A record with another mark than 0 or 1 is 3, a column's as well as a wall's, strengthened or not; before its 4.
#[test]
fn a_mark_of_every_record() {
    for form in FORMS {
        let mut rng = Rng::new(SEED + 5);
        let (mut columns, mut walls) = ([0; 2], [0; 2]);
        while columns.iter().chain(&walls).any(|&n| n < 20) {
            let m = edge_member(&mut rng, form);
            (if is_wall(&m) { &mut walls } else { &mut columns })[m.strengthened as usize] += 1;
            for annex_e in [0, 1, 2, 3, 256, 257, 1 << 32, (1 << 32) + 1, u64::MAX] {
                let marked = independent::Member { annex_e, ..m };
                let due = if annex_e < 2 { Ok(()) } else { Err(Refusal::of_record(3)) };
                assert_eq!(member_fault(form, &member_numbers(&marked).unwrap()), due, "{marked:?}");
                assert_eq!(same_member(100, form, [false; 4], &marked), due.err());
                let narrow = independent::Member { short_side: m.long_side + 1, ..marked };
                let due = if annex_e < 2 && narrow.short_side < 100_000 { 4 } else { 3 };
                assert_eq!(member_fault(form, &member_numbers(&narrow).unwrap()), Err(Refusal::of_record(due)), "{narrow:?}");
            }
        }
    }
}

/// An S or M line of the other form is 1 where it stands; the first S line tells the form, so there the line after it is.
#[test]
fn lines_of_the_other_form() {
    let other = |form| if form == CASE_FORM { OLD_FORM } else { CASE_FORM };
    for form in FORMS {
        let good = lines(form);
        let strange = lines(other(form));
        for (at, line) in good.iter().enumerate().skip(1).filter(|(_, line)| line.tag != b'D') {
            let from = strange.iter().find(|l| l.tag == line.tag).expect("a line").clone();
            let due = if at == 1 { 3 } else { at as u64 + 1 };
            refused(&with(form, |l| l[at] = from), ROWS, 1, due);
        }
        let case = lines(CASE_FORM)[3].clone();
        refused(&with(form, |l| l.insert(2, case)), ROWS, 1, 3);
    }
}

#[test]
fn accepted_rows_are_those_written() {
    for form in FORMS {
        let s = small(form);
        assert_eq!(read(&write_survey(&s), 4, 5), Ok(s));
    }
}

/// Each force that N_D and N_K may be, handed in without the offset, is refused.
#[test]
fn a_force_handed_in_as_it_is_is_refused() {
    let good = member_numbers(&small(CASE_FORM).members[0]).unwrap();
    for j in [17, 19, 27, 35, 43] {
        for force in [0, 1, 3_150, 999_999, 1_000_000, 9_999_999] {
            let mut numbers = good;
            numbers[j] = force;
            assert_eq!(member_fault(CASE_FORM, &numbers), Err(Refusal::of_record(3)), "number {} = {force}", j + 1);
        }
    }
}

/// A case that the old form lacks has N_K at the force 0; as eight zeros it is refused.
#[test]
fn a_lacking_case_of_zeros_is_refused() {
    let numbers = member_numbers(&worked_example().members[0]).unwrap();
    assert_eq!(member_fault(OLD_FORM, &numbers), Ok(()));
    let member = llunareth::Member::from(numbers);
    for i in 1..4 {
        assert_eq!(member.cases[i], LoadCase::NONE);
        let mut zeroed = member;
        zeroed.cases[i] = LoadCase::default();
        assert_eq!(member_fault(OLD_FORM, &zeroed.into()), Err(Refusal::of_record(3)), "case {}", i + 1);
    }
}

/// Every number of a case that the old form lacks, and every such shear, with another value.
#[test]
fn a_lacking_case_holds_nothing_else() {
    let s = worked_example();
    for j in MEMBER.len() + LOAD_CASE.len()..MEMBER_NUMBERS {
        let mut numbers = member_numbers(&s.members[0]).unwrap();
        let none = numbers[j];
        for value in edges().into_iter().filter(|&value| value != none) {
            numbers[j] = value;
            assert_eq!(member_fault(OLD_FORM, &numbers), Err(Refusal::of_record(3)), "number {} = {value}", j + 1);
        }
    }
    for j in 2..5 {
        let mut numbers = storey_numbers(&s.storeys[0]);
        for value in edges().into_iter().filter(|&value| value != 0) {
            numbers[j] = value;
            assert_eq!(storey_fault(OLD_FORM, &numbers), Err(Refusal::of_record(3)), "number {} = {value}", j + 1);
        }
    }
}

#[test]
fn every_fields_range_from_a_record() {
    for form in FORMS {
        let s = small(form);
        let good = member_numbers(&s.members[0]).unwrap();
        assert_eq!(member_fault(form, &good), Ok(()));
        let mut threes = [0; MEMBER_NUMBERS];
        for j in 0..MEMBER_NUMBERS {
            for v in edges() {
                let mut numbers = good;
                numbers[j] = v;
                let expected = check_member(form, &member_of(&numbers));
                assert_eq!(member_fault(form, &numbers), expected, "form {form}, M number {} = {v}", j + 1);
                threes[j] += u32::from(expected == Err(Refusal::of_record(3)));
            }
        }
        assert!(threes.iter().all(|&n| n > 0), "every number's 3: {threes:?}");
        for j in 0..HEADER_NUMBERS {
            for v in edges() {
                let mut numbers = header_numbers(&s.header);
                numbers[j] = v;
                assert_eq!(header_fault(&numbers), check_header(&header_of(&numbers)), "form {form}, B number {} = {v}", j + 1);
            }
        }
        for j in 0..STOREY_NUMBERS {
            for v in edges() {
                let mut numbers = storey_numbers(&s.storeys[0]);
                numbers[j] = v;
                let expected = check_storey(form, &storey_of(&numbers));
                assert_eq!(storey_fault(form, &numbers), expected, "form {form}, S number {} = {v}", j + 1);
            }
        }
    }
}

/// At and beside the ends of every range.
fn edges() -> Vec<u64> {
    let ends = [0, 1, 4, 10, 90, 99, 100, 200, 9_999, 30_000, 99_999, 1_000_000, 9_999_999, 19_000_001, 20_000_000, 29_999_999, u64::MAX];
    ends.iter().flat_map(|&e: &u64| [e.saturating_sub(1), e, e.saturating_add(1)]).collect()
}

#[test]
fn wild_records() {
    let mut rng = Rng::new(SEED + 3);
    for _ in 0..20_000 {
        let form = any_form(&mut rng);
        let m = wild_member(&mut rng, form);
        if let Some(numbers) = member_numbers(&m) {
            assert_eq!(member_fault(form, &numbers), check_member(form, &m), "{m:?}");
        }
        let h = wild_header(&mut rng);
        assert_eq!(header_fault(&header_numbers(&h)), check_header(&h), "{h:?}");
        let s = wild_storey(&mut rng, form);
        assert_eq!(storey_fault(form, &storey_numbers(&s)), check_storey(form, &s), "{s:?}");
    }
}

/// A record by itself, of the other form and of one that is not known, which is 3.
#[test]
fn records_of_the_other_form_and_of_none() {
    for form in FORMS {
        let s = small(form);
        let (storey, member) = (storey_numbers(&s.storeys[0]), member_numbers(&s.members[0]).unwrap());
        for other in FORMS {
            assert_eq!(storey_fault(other, &storey), check_storey(other, &s.storeys[0]));
            assert_eq!(member_fault(other, &member), check_member(other, &s.members[0]));
            let fits = other == form;
            assert_eq!((storey_fault(other, &storey).is_ok(), member_fault(other, &member).is_ok()), (fits, fits), "{form} as {other}");
        }
        for unknown in [0, 3, 255, u64::MAX] {
            assert_eq!((storey_fault(unknown, &storey), member_fault(unknown, &member)), (Err(Refusal::of_record(3)), Err(Refusal::of_record(3))), "{form} as {unknown}");
        }
    }
}

#[test]
fn a_record_with_a_missing_field_is_refused() {
    for form in FORMS {
        let s = small(form);
        let (header, storey) = (header_numbers(&s.header), storey_numbers(&s.storeys[0]));
        let member = member_numbers(&s.members[0]).unwrap();
        assert_eq!((raw::header_fault(&header), raw::storey_fault(form, &storey), raw::member_fault(form, &member)), (0, 0, 0));
        (0..HEADER_NUMBERS).for_each(|n| assert_eq!(raw::header_fault(&header[..n]), 3, "B with {n} numbers"));
        (0..STOREY_NUMBERS).for_each(|n| assert_eq!(raw::storey_fault(form, &storey[..n]), 3, "S with {n} numbers"));
        (0..MEMBER_NUMBERS).for_each(|n| assert_eq!(raw::member_fault(form, &member[..n]), 3, "M with {n} numbers"));
    }
}
