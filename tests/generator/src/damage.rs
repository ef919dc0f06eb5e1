//! Damaged files, and files of every kind.

use crate::edges::range;
use crate::rng::Rng;
use crate::sizes::{bytes_of, INPUT_MOST};
use crate::surveys::valid_survey;
use crate::wild::wild_survey;
use crate::writer::{number_field, raw_field, write_survey};
use independent::lines::{b_line, d_line, m_line, s_line, Field, CASE_FORM, OLD_FORM};
use independent::read;

/// Lines with their LF; the last may lack it.
type Lines = Vec<Vec<u8>>;

fn split(bytes: &[u8]) -> Lines {
    bytes
        .split_inclusive(|&b| b == b'\n')
        .map(|line| line.to_vec())
        .collect()
}

/// One or more damages to a file. Now and then a damage changes nothing that
/// matters and the file stays good.
pub fn damage(rng: &mut Rng, bytes: &[u8]) -> Vec<u8> {
    let mut lines = split(bytes);
    if lines.is_empty() {
        return any_bytes(rng);
    }
    if rng.chance(20) {
        same_line(rng, &mut lines);
        return lines.concat();
    }
    let times = rng.pick(&[1, 1, 1, 1, 1, 1, 2, 2, 3, 4]);
    let mut bytes = lines.concat();
    for _ in 0..times {
        bytes = damage_once(rng, bytes);
    }
    bytes
}

/// Two to four damages to the fields of one line, and perhaps its tag or end,
/// so that the order within the line matters.
fn same_line(rng: &mut Rng, lines: &mut Lines) {
    let mut i = near_line(rng, lines.len());
    if rng.chance(25) {
        // A member with its sides and its number both wrong.
        let members = with_tag(lines, b'M');
        if let Some(&last) = members.last() {
            i = last;
        }
        short_above_long(rng, &mut lines[i]);
        repeat_number(rng, lines, i);
        if rng.chance(50) {
            return;
        }
    }
    for _ in 0..rng.between(2, 4) {
        match rng.below(8) {
            0..=2 => bad_writing(rng, &mut lines[i]),
            3..=5 => out_of_range(rng, &mut lines[i]),
            6 => repeat_number(rng, lines, i),
            _ => short_above_long(rng, &mut lines[i]),
        }
    }
    if rng.chance(15) {
        change_tag(rng, &mut lines[i]);
    }
}

/// A line's place, oftener among the first ones.
fn near_line(rng: &mut Rng, count: usize) -> usize {
    if rng.chance(40) {
        rng.index(count.min(5))
    } else {
        rng.index(count)
    }
}

fn damage_once(rng: &mut Rng, bytes: Vec<u8>) -> Vec<u8> {
    if bytes.is_empty() {
        return any_bytes(rng);
    }
    match rng.below(36) {
        0 | 1 => change_byte(rng, bytes),
        2 => insert_byte(rng, bytes),
        3 => remove_byte(rng, bytes),
        4 | 5 => cut_file(rng, bytes),
        6 | 7 => append(rng, bytes),
        _ => {
            let mut lines = split(&bytes);
            damage_line(rng, &mut lines);
            lines.concat()
        }
    }
}

fn damage_line(rng: &mut Rng, lines: &mut Lines) {
    let i = near_line(rng, lines.len());
    let j = rng.index(lines.len());
    if rng.chance(25) && damage_cases(rng, lines) {
        return;
    }
    match rng.below(34) {
        0 => {
            lines.remove(i);
        }
        1 => {
            let line = lines[i].clone();
            lines.insert(i, line);
        }
        2 => lines.swap(i, j),
        3 => change_length(rng, &mut lines[i]),
        4 => {
            // LF taken away.
            lines[i].pop();
        }
        5 => {
            // LF put inside.
            let place = rng.index(lines[i].len());
            if rng.chance(50) {
                lines[i][place] = b'\n';
            } else {
                lines[i].insert(place, b'\n');
            }
        }
        6 => change_tag(rng, &mut lines[i]),
        7 => {
            // Cut exactly at a line's end.
            lines.truncate(i + 1);
        }
        8..=13 => bad_writing(rng, &mut lines[i]),
        14..=18 => out_of_range(rng, &mut lines[i]),
        19 | 20 => count_lies(rng, lines),
        21 | 22 => repeat_number(rng, lines, i),
        23 => {
            let storeys = with_tag(lines, b'S');
            let i = storeys.last().copied().unwrap_or(i);
            repeat_number(rng, lines, i);
        }
        24 | 25 => not_low_rise(rng, lines),
        26 | 27 => {
            let members = with_tag(lines, b'M');
            if !members.is_empty() {
                let i = members[near_line(rng, members.len())];
                short_above_long(rng, &mut lines[i]);
            }
        }
        28 => {
            // A line of the other end of the file.
            let line = lines[j].clone();
            lines.push(line);
        }
        29 | 30 => other_form(rng, lines),
        31 | 32 => without_last_field(rng, lines),
        _ => end_otherwise(rng, &mut lines[i]),
    }
}

// ---- load cases ----

/// Damage to one D line or to the order of several; false where there is none.
fn damage_cases(rng: &mut Rng, lines: &mut Lines) -> bool {
    let cases = with_tag(lines, b'D');
    if cases.is_empty() {
        return false;
    }
    let place = near_line(rng, cases.len());
    let i = cases[place];
    match rng.below(12) {
        0 => {
            lines.remove(i);
        }
        1 => {
            let line = lines[i].clone();
            lines.insert(i, line);
        }
        2 | 3 => {
            // With a neighbour, or with any.
            let other = if rng.chance(70) {
                cases[place.saturating_sub(1)]
            } else {
                cases[rng.index(cases.len())]
            };
            lines.swap(i, other);
        }
        4..=7 => {
            let number = rng.pick(&[1, 2, 3, 4, 1, 2, 3, 4, 0, 5, 10]);
            put(&mut lines[i], 1, &number_field(number));
            if rng.chance(30) {
                // With something else wrong in the line, or in its member.
                let j = rng.pick(&[i, i, i.saturating_sub(1)]);
                out_of_range(rng, &mut lines[j]);
            }
        }
        8 => change_length(rng, &mut lines[i]),
        9 => {
            // All cases of a member.
            let member = lines[..i].iter().rposition(|l| l.first() == Some(&b'M'));
            let from = member.map_or(i, |m| m + 1);
            lines.drain(from..(from + 4).min(lines.len()));
        }
        10 => bad_writing(rng, &mut lines[i]),
        _ => out_of_range(rng, &mut lines[i]),
    }
    true
}

/// An S, M or D line as the other form has it.
fn other_form(rng: &mut Rng, lines: &mut Lines) {
    let tag = rng.pick(b"SSSM");
    let of_tag = with_tag(lines, tag);
    if of_tag.is_empty() {
        return;
    }
    let i = of_tag[near_line(rng, of_tag.len())];
    let (old, cases) = match tag {
        b'S' => (s_line(OLD_FORM), s_line(CASE_FORM)),
        _ => (m_line(OLD_FORM), m_line(CASE_FORM)),
    };
    let now = fields_in(&lines[i]);
    let due = if now == cases.fields.len() {
        old.fields.len()
    } else {
        cases.fields.len()
    };
    // Fields are taken away before the last one, or put in there.
    let last = 1 + 8 * now.saturating_sub(1);
    if due < now {
        let from = 1 + 8 * (due - 1);
        lines[i].drain(from.min(last)..last);
    } else {
        let more = vec![number_field(1_000); due - now].concat();
        lines[i].splice(last..last, more);
    }
    if tag == b'M' && due < now && rng.chance(50) {
        let mut case = vec![b'D'];
        case.extend(number_field(1).repeat(d_line().fields.len()));
        case.push(b'\n');
        lines.insert(i + 1, case);
    }
}

/// One M line, or every one, without its last field, as files had them before
/// it.
fn without_last_field(rng: &mut Rng, lines: &mut Lines) {
    let members = with_tag(lines, b'M');
    if members.is_empty() {
        return;
    }
    let one = members[near_line(rng, members.len())];
    let every = rng.chance(50);
    for i in members.into_iter().filter(|&i| every || i == one) {
        let last = 1 + 8 * fields_in(&lines[i]).saturating_sub(1);
        let end = (last + 8).min(lines[i].len());
        lines[i].drain(last.min(end)..end);
    }
}

// ---- bytes ----

fn odd_byte(rng: &mut Rng) -> u8 {
    match rng.below(4) {
        0 => rng.next() as u8,
        1 => b'0' + rng.below(10) as u8,
        _ => rng.pick(b" 0-+\n\r\tBSMDE.,_\0\x0b\xff\xa0"),
    }
}

fn change_byte(rng: &mut Rng, mut bytes: Vec<u8>) -> Vec<u8> {
    let place = rng.index(bytes.len());
    bytes[place] = odd_byte(rng);
    bytes
}

fn insert_byte(rng: &mut Rng, mut bytes: Vec<u8>) -> Vec<u8> {
    let place = rng.index(bytes.len() + 1);
    bytes.insert(place, odd_byte(rng));
    bytes
}

fn remove_byte(rng: &mut Rng, mut bytes: Vec<u8>) -> Vec<u8> {
    let place = rng.index(bytes.len());
    bytes.remove(place);
    bytes
}

fn cut_file(rng: &mut Rng, mut bytes: Vec<u8>) -> Vec<u8> {
    let length = match rng.below(3) {
        0 => bytes.len() - 1,
        1 => bytes.len() - rng.index(bytes.len().min(m_line(OLD_FORM).length() + 1)),
        _ => rng.index(bytes.len()),
    };
    bytes.truncate(length);
    bytes
}

fn append(rng: &mut Rng, mut bytes: Vec<u8>) -> Vec<u8> {
    match rng.below(6) {
        0 => bytes.push(b'\n'),
        1 => bytes.push(b' '),
        2 => bytes.push(0),
        3 => {
            let last = split(&bytes).pop().unwrap_or_default();
            bytes.extend(last);
        }
        4 => {
            let again = bytes.clone();
            bytes.extend(again);
        }
        _ => bytes.extend(any_bytes(rng)),
    }
    bytes
}

// ---- lines ----

fn change_length(rng: &mut Rng, line: &mut Vec<u8>) {
    let many = rng.pick(&[1, 1, 7, 8, 8, 16]);
    for _ in 0..many {
        if rng.chance(50) && line.len() > 2 {
            line.remove(1);
        } else {
            line.insert(line.len().min(1), b' ');
        }
    }
    // Or a whole field less or more.
    if rng.chance(50) && line.len() > 10 {
        let cut = line.len() - 9;
        line.truncate(cut);
        line.push(b'\n');
    }
}

fn change_tag(rng: &mut Rng, line: &mut [u8]) {
    line[0] = rng.pick(b"BSMDEbsmd \n\0");
}

fn end_otherwise(rng: &mut Rng, line: &mut Vec<u8>) {
    line.pop();
    match rng.below(4) {
        0 => line.extend_from_slice(b"\r\n"),
        1 => line.push(b'\r'),
        2 => line.extend_from_slice(b" \n"),
        _ => line.extend_from_slice(b"\n\n"),
    }
}

fn with_tag(lines: &Lines, tag: u8) -> Vec<usize> {
    (0..lines.len())
        .filter(|&i| lines[i].first() == Some(&tag))
        .collect()
}

// ---- fields ----

/// How many whole fields a line has.
fn fields_in(line: &[u8]) -> usize {
    line.len().saturating_sub(2) / 8
}

/// Puts eight bytes into a field, counted from 1, where the line has it.
fn put(line: &mut [u8], field: usize, text: &[u8]) {
    if field >= 1 && field <= fields_in(line) && text.len() == 8 {
        line[1 + (field - 1) * 8..1 + field * 8].copy_from_slice(text);
    }
}

fn field_bytes(line: &[u8], field: usize) -> Option<Vec<u8>> {
    if field >= 1 && field <= fields_in(line) {
        Some(line[1 + (field - 1) * 8..1 + field * 8].to_vec())
    } else {
        None
    }
}

fn field_value(line: &[u8], field: usize) -> Option<i128> {
    let text = String::from_utf8(field_bytes(line, field)?).ok()?;
    text.trim().parse().ok()
}

fn any_field(rng: &mut Rng, line: &[u8]) -> usize {
    let fields = fields_in(line);
    if rng.chance(15) {
        // N_D and N_K.
        match line.first() {
            Some(b'M') if fields > m_line(CASE_FORM).fields.len() => return rng.pick(&[18, 19]),
            Some(b'M') if fields >= 18 => return 18,
            Some(b'D') if fields >= 2 => return 2,
            _ => {}
        }
    }
    1 + rng.index(fields)
}

/// A field not written as it should be.
fn bad_writing(rng: &mut Rng, line: &mut [u8]) {
    let field = any_field(rng, line);
    let number = field_value(line, field).unwrap_or(5).to_string();
    let bare = number.trim_start_matches('-').to_string();
    let text = match rng.below(22) {
        0 => format!("0{}", bare),
        1 => "-0".to_string(),
        2 => "-05".to_string(),
        3 => format!("-0{}", bare),
        4 => format!("-{}", bare),
        5 => "-5".to_string(),
        6 => format!("+{}", bare),
        7 => format!("{} ", number),
        8 => format!("{}   ", number),
        9 => "1 2".to_string(),
        10 => "- 5".to_string(),
        11 => "12345678".to_string(),
        12 => "00000000".to_string(),
        13 => String::new(),
        14 => "-".to_string(),
        15 => "--5".to_string(),
        16 => "00".to_string(),
        17 => "-1234567".to_string(),
        18 => "1.5".to_string(),
        19 => format!("\t{}", number),
        20 => rng
            .pick(&["1e3", "0x1", "5-", "5-5", "x", "1,0", "\0", "9:", "/9"])
            .to_string(),
        _ => format!("{:<8}", number),
    };
    put(line, field, &raw_field(text.as_bytes()));
}

/// Least and most of a field by its line's tag and length.
fn range_of(line: &[u8], field: usize) -> (i128, i128) {
    let kinds = [
        b_line(),
        s_line(OLD_FORM),
        s_line(CASE_FORM),
        m_line(OLD_FORM),
        m_line(CASE_FORM),
        d_line(),
    ];
    let kind = kinds
        .into_iter()
        .find(|kind| line.first() == Some(&kind.tag) && fields_in(line) == kind.fields.len());
    match kind.map(|kind| kind.fields[field - 1]) {
        Some(Field::StoreyCount) => (1, field_value(line, 3).unwrap_or(1)),
        Some(field) => range(field),
        None => (0, 9_999_999),
    }
}

/// A field out of its range, or at an end of it, in 8 columns.
fn out_of_range(rng: &mut Rng, line: &mut [u8]) {
    let field = any_field(rng, line);
    let (least, most) = range_of(line, field);
    let value = match rng.below(8) {
        0..=2 => least - 1,
        3..=5 => most + 1,
        6 => rng.pick(&[least, most, 95, 9_999_999]),
        _ => rng.between(0, 9_999_999),
    };
    put(line, field, &number_field(value));
}

/// A count of S or M lines that is not the number there.
fn count_lies(rng: &mut Rng, lines: &mut Lines) {
    let storeys = with_tag(lines, b'S');
    let of_header = storeys.is_empty() || rng.chance(35);
    let i = if of_header {
        0
    } else {
        storeys[rng.index(storeys.len())]
    };
    let field = if of_header { 6 } else { fields_in(&lines[i]) };
    let count = field_value(&lines[i], field).unwrap_or(1);
    let value = match rng.below(6) {
        0 | 1 => count + 1,
        2 | 3 => (count - 1).max(0),
        4 => 0,
        _ => rng.pick(&[200, 201, 10, 11, 99]),
    };
    put(&mut lines[i], field, &number_field(value));
}

/// The number of an earlier line of the same tag; for members mostly one of
/// the same storey.
fn repeat_number(rng: &mut Rng, lines: &mut Lines, i: usize) {
    let Some(&tag) = lines[i].first() else {
        return;
    };
    let mut earlier: Vec<usize> = Vec::new();
    for j in (0..i).rev() {
        let other = lines[j].first();
        if other == Some(&tag) {
            earlier.push(j);
        } else if tag == b'M' && other != Some(&b'D') && rng.chance(90) {
            break;
        }
    }
    if earlier.is_empty() || tag == b'B' {
        return;
    }
    let from = earlier[rng.index(earlier.len())];
    if let Some(text) = field_bytes(&lines[from], 1) {
        put(&mut lines[i], 1, &text);
    }
}

/// H_T or n_s beyond what the method covers.
fn not_low_rise(rng: &mut Rng, lines: &mut Lines) {
    if rng.chance(60) {
        let value = rng.pick(&[30_000, 30_001, 30_001, 99_999, 100_000]);
        put(&mut lines[0], 2, &number_field(value));
    }
    if rng.chance(60) {
        let value = rng.pick(&[10, 11, 11, 99, 100]);
        put(&mut lines[0], 3, &number_field(value));
    }
}

fn short_above_long(rng: &mut Rng, line: &mut [u8]) {
    if line.first() != Some(&b'M') {
        return;
    }
    if let (Some(long), Some(short)) = (field_value(line, 2), field_value(line, 3)) {
        if rng.chance(40) && long > short {
            put(line, 2, &number_field(short));
            put(line, 3, &number_field(long));
        } else {
            put(line, 3, &number_field((long + 1).min(99_999)));
        }
    }
}

// ---- whole files ----

fn any_bytes(rng: &mut Rng) -> Vec<u8> {
    let length = match rng.below(3) {
        0 => rng.index(10),
        1 => rng.index(300),
        _ => rng.pick(&[
            49,
            50,
            51,
            bytes_of(OLD_FORM, 1, 0),
            bytes_of(OLD_FORM, 1, 1),
            bytes_of(CASE_FORM, 1, 0),
            bytes_of(CASE_FORM, 1, 1),
        ]),
    };
    let near = rng.chance(60);
    (0..length)
        .map(|_| {
            if near {
                rng.pick(b"BSMD    0123456789-\n\n")
            } else {
                rng.next() as u8
            }
        })
        .collect()
}

/// A file of any kind: good, damaged, empty, noise or over-long.
pub fn any_file(rng: &mut Rng) -> Vec<u8> {
    match rng.below(100) {
        0..=31 => write_survey(&valid_survey(rng)),
        32..=85 => {
            let survey = valid_survey(rng);
            damage(rng, &write_survey(&survey))
        }
        86 => Vec::new(),
        87..=89 => any_bytes(rng),
        90..=94 => write_survey(&wild_survey(rng)),
        95 => {
            // A good beginning, then noise.
            let mut bytes = write_survey(&valid_survey(rng));
            let keep = rng.index(bytes.len());
            bytes.truncate(keep);
            bytes.extend(any_bytes(rng));
            bytes
        }
        96 | 97 => {
            let length = rng.pick(&[INPUT_MOST - 1, INPUT_MOST, INPUT_MOST]);
            filled_to(rng, length)
        }
        _ => {
            let length = INPUT_MOST + rng.pick(&[1, 1, 2, 464, INPUT_MOST]);
            filled_to(rng, length)
        }
    }
}

/// A file, good or bad, made up to a length.
fn filled_to(rng: &mut Rng, length: usize) -> Vec<u8> {
    let mut bytes = write_survey(&valid_survey(rng));
    if rng.chance(30) {
        bytes = damage(rng, &bytes);
    }
    let fill = rng.pick(b" \nM0\0");
    bytes.resize(length, fill);
    bytes
}

/// Lengths of rows to lend for a file: enough, just enough, too few, or such
/// that the first line refused would not fit either.
pub fn lent_rows(rng: &mut Rng, bytes: &[u8]) -> (usize, usize) {
    let lines = split(bytes);
    let storeys = with_tag(&lines, b'S').len();
    let members = with_tag(&lines, b'M').len();
    match rng.below(10) {
        0 | 1 => (10, 320),
        2 | 3 => (storeys, members),
        4 => (storeys, rng.index(members + 1)),
        5 => (storeys, members.saturating_sub(1)),
        6 => (storeys.saturating_sub(1), members),
        7 => (rng.index(storeys + 1), rng.index(members + 1)),
        _ => up_to_refusal(bytes, &lines),
    }
}

fn up_to_refusal(bytes: &[u8], lines: &Lines) -> (usize, usize) {
    let line = match read(bytes, usize::MAX, usize::MAX) {
        Ok(_) => return (10, 320),
        Err(refusal) => refusal.line as usize,
    };
    let before = |tag| {
        with_tag(lines, tag)
            .into_iter()
            .filter(|&i| i + 1 < line)
            .count()
    };
    let member_refused = lines.get(line - 1).and_then(|l| l.first()) == Some(&b'M');
    let storeys = before(b'S');
    (
        if member_refused {
            storeys.max(1)
        } else {
            storeys
        },
        before(b'M'),
    )
}

/// The length of a buffer to lend for so many bytes: just enough, more, one
/// too few, any fewer, or about the length of the line `E`.
pub fn lent_bytes(rng: &mut Rng, length: usize) -> usize {
    match rng.below(8) {
        0..=2 => length,
        3 => length + 1 + rng.index(300),
        4 | 5 => length.saturating_sub(1),
        6 => rng.index(length + 1),
        _ => rng.pick(&[0, 1, 25, 26, 27]),
    }
}
