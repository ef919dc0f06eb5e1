//! Files with four load cases: each refusal at its line, reading and writing.

mod common;

use common::cases::{
    block, example_file, example_lines, header, members, storey, survey, D1, D2, M1, M2, S,
};
use common::{line, refused, with_field, with_number, B};
use independent::lines::{b_line, d_line, m_line, s_line, CASE_FORM, OLD_FORM};
use independent::{determine, read, report, write_survey, Header, Member, Refusal, Survey};

const B_BYTES: usize = 50;
const S_BYTES: usize = 50;
const M_BYTES: usize = 154;
const D_BYTES: usize = 74;
const MEMBER_BYTES: usize = M_BYTES + 4 * D_BYTES;

fn try_reading(lines: &[String]) -> Result<Survey, Refusal> {
    read(lines.concat().as_bytes(), 10, 320)
}

fn reading(lines: &[String]) -> (u8, u64) {
    refused(try_reading(lines))
}

/// The example with one line changed.
fn with_line(place: usize, text: String) -> Vec<String> {
    let mut lines = example_lines();
    lines[place - 1] = text;
    lines
}

/// The lines 4 to 7 and 9 to 12 are the D lines of the two members.
const D_PLACES: [usize; 8] = [4, 5, 6, 7, 9, 10, 11, 12];

fn without_line(place: usize) -> Vec<String> {
    let mut lines = example_lines();
    lines.remove(place - 1);
    lines
}

fn with_line_before(place: usize, text: String) -> Vec<String> {
    let mut lines = example_lines();
    lines.insert(place - 1, text);
    lines
}

/// Fields of a line.
fn fields_of(text: &str) -> usize {
    (text.len() - 2) / 8
}

#[test]
fn the_example_is_read() {
    assert_eq!(read(&example_file(), 1, 2).unwrap(), survey());
    let lines = example_lines();
    let sizes: Vec<usize> = lines.iter().map(|l| l.len()).collect();
    assert_eq!(sizes[..4], [B_BYTES, S_BYTES, M_BYTES, D_BYTES]);
    assert_eq!(b_line().length(), B_BYTES);
    assert_eq!(s_line(CASE_FORM).length(), S_BYTES);
    assert_eq!(m_line(CASE_FORM).length(), M_BYTES);
    assert_eq!(d_line().length(), D_BYTES);
}

#[test]
fn the_first_storey_line_tells_the_form() {
    let of = |bytes: &[u8]| read(bytes, 10, 320).unwrap().header.form;
    assert_eq!(of(&common::example_file()), OLD_FORM);
    assert_eq!(of(&example_file()), CASE_FORM);
    // Nothing else in the file does.
    let old_lines = common::example_lines();
    let mut lines = example_lines();
    lines[1] = old_lines[1].clone();
    assert_eq!(reading(&lines), (1, 3));
    let mut lines = old_lines.clone();
    lines[1] = line('S', S);
    assert_eq!(reading(&lines), (1, 3));
    // An M line of the old form with D lines after it.
    let mut lines = example_lines();
    lines[2] = old_lines[2].clone();
    assert_eq!(reading(&lines), (1, 3));
    let mut lines = old_lines;
    lines.insert(3, line('D', D1[0]));
    assert_eq!(reading(&lines), (1, 4));
}

/// A first S line with any other number of fields is of neither form.
#[test]
fn a_first_storey_line_of_neither_form() {
    for count in [0, 1, 2, 4, 5, 7, 8] {
        let fields = vec!["1"; count].join(" ");
        assert_eq!(reading(&with_line(2, line('S', &fields))), (1, 2));
    }
    for length in 0..120 {
        let text = format!("{:<length$}\n", "S");
        let expected = match length.max(1) + 1 {
            26 | 50 => (2, 2),
            _ => (1, 2),
        };
        assert_eq!(reading(&with_line(2, text)), expected, "{length}");
    }
    // The line ends at its first LF: 26 bytes of the old form, then 24 more.
    let mut text = line('S', "1 1000 2 2000 400 2");
    text.replace_range(25..26, "\n");
    assert_eq!(reading(&with_line(2, text)), (1, 3));
    // Another tag of either length.
    assert_eq!(reading(&with_line(2, line('M', S))), (1, 2));
    assert_eq!(reading(&with_line(2, line('D', common::S))), (1, 2));
    assert_eq!(reading(&with_line(2, line('B', B))), (1, 2));
}

/// Two storeys, the second in the other form.
#[test]
fn mixed_storey_lines() {
    let b = line('B', "100 9000 3 0 0 2");
    let mut cases = vec![b.clone(), line('S', "1 1000 500 2000 400 1")];
    cases.push(line('M', M1));
    cases.extend(D1.map(|d| line('D', d)));
    let mut old = vec![b, line('S', "1 1000 1")];
    old.push(line('M', common::M1));

    let mut both = cases.clone();
    both.push(line('S', "2 1000 500 2000 400 1"));
    both.push(line('M', M1));
    both.extend(D1.map(|d| line('D', d)));
    assert!(try_reading(&both).is_ok());

    let mut mixed = cases.clone();
    mixed.extend([line('S', "2 1000 1"), line('M', common::M1)]);
    assert_eq!(reading(&mixed), (1, 8));
    let mut mixed = cases;
    mixed.push(line('S', "2 1000 500 2000 400 1"));
    mixed.push(line('M', common::M1));
    assert_eq!(reading(&mixed), (1, 9));

    let mut mixed = old.clone();
    mixed.extend([line('S', "2 1000 500 2000 400 1"), line('M', M1)]);
    mixed.extend(D1.map(|d| line('D', d)));
    assert_eq!(reading(&mixed), (1, 4));
    let mut mixed = old;
    mixed.extend([line('S', "2 1000 1"), line('M', M1)]);
    assert_eq!(reading(&mixed), (1, 5));
}

#[test]
fn absent_lines() {
    let lines = example_lines();
    for present in 0..12 {
        assert_eq!(reading(&lines[..present]), (1, present as u64 + 1));
    }
    let file = example_file();
    for cut in 0..file.len() {
        let line = 1 + file[..cut].iter().filter(|&&b| b == b'\n').count() as u64;
        assert_eq!(refused(read(&file[..cut], 10, 320)), (1, line));
    }
}

#[test]
fn tags_and_lengths() {
    for (i, text) in example_lines().iter().enumerate() {
        let place = i + 1;
        let refusal = (1, place as u64);
        for other in ["B", "S", "M", "D", "E", "d", " ", "\n"] {
            if other != &text[..1] {
                let changed = format!("{}{}", other, &text[1..]);
                assert_eq!(reading(&with_line(place, changed)), refusal);
            }
        }
        for changed in [
            with_field(text, 2, "     \n 1"),
            text.replace('\n', " \n"),
            text.replace('\n', "\r\n"),
            text.replace('\n', "\r"),
            text.replace('\n', "       1\n"),
            text[..text.len() - 2].to_string() + "\n",
            "\n".to_string(),
        ] {
            assert_eq!(reading(&with_line(place, changed)), refusal);
        }
    }
    // A D line with 8 fields, and with 10.
    let short = line('D', "1 3150 600 200 60 100 200 9000");
    assert_eq!(reading(&with_line(4, short)), (1, 4));
    let long = line('D', "1 3150 600 200 60 100 200 9000 0 0");
    assert_eq!(reading(&with_line(4, long)), (1, 4));
    // A whole M or S line in place of a D line, and the other way round.
    for place in D_PLACES {
        for other in [line('M', M2), line('S', S), line('M', common::M2)] {
            assert_eq!(reading(&with_line(place, other)), (1, place as u64));
        }
    }
    assert_eq!(reading(&with_line(3, line('D', D1[0]))), (1, 3));
    assert_eq!(reading(&with_line(8, line('D', D2[0]))), (1, 8));
}

#[test]
fn two() {
    for (i, text) in example_lines().iter().enumerate() {
        let refusal = (2, i as u64 + 1);
        for field in 1..=fields_of(text) {
            for raw in [
                "        ",
                "12345678",
                "      01",
                "      +1",
                "      1 ",
                "     1 1",
                "      -0",
                "     -01",
                "     - 1",
                "       -",
                "     1.0",
                "\t      1",
            ] {
                let changed = with_line(i + 1, with_field(text, field, raw));
                assert_eq!(reading(&changed), refusal, "{field} {raw:?}");
            }
            let changed = with_line(i + 1, with_field(text, field, "      -1"));
            let n_d = text.starts_with('M') && field == 18;
            let n_k = text.starts_with('D') && field == 2;
            if n_d || n_k {
                assert!(try_reading(&changed).is_ok());
            } else {
                assert_eq!(reading(&changed), refusal);
            }
        }
    }
}

#[test]
fn three() {
    let bad_b = [
        (1, vec![0, 89, 91, 101]),
        (3, vec![0, 100]),
        (6, vec![0, 4]),
    ];
    for (field, values) in bad_b {
        for value in values {
            let changed = with_line(1, with_number(&line('B', B), field, value));
            assert_eq!(reading(&changed), (3, 1));
        }
    }
    let bad_s = [(1, vec![0]), (6, vec![0, 201])];
    let shears = (2..=5).map(|field| (field, vec![0]));
    for (field, values) in bad_s.into_iter().chain(shears) {
        for value in values {
            let changed = with_line(2, with_number(&line('S', S), field, value));
            assert_eq!(reading(&changed), (3, 2));
        }
    }
    let bad_m = [
        (1, vec![0]),
        (2, vec![0, 100_000]),
        (3, vec![0, 100_000]),
        (4, vec![0]),
        (5, vec![0, 10_000]),
        (6, vec![0, 10_000]),
        (7, vec![0, 100_000]),
        (8, vec![0, 100_000]),
        (9, vec![0, 100_000]),
        (10, vec![0, 10_000]),
        (11, vec![0, 100_000]),
        (12, vec![100_000]),
        (13, vec![2]),
        (14, vec![2]),
        (15, vec![2]),
        (16, vec![101]),
        (17, vec![5]),
        (19, vec![2]),
    ];
    for (field, values) in bad_m {
        for value in values {
            let changed = with_line(8, with_number(&line('M', M2), field, value));
            assert_eq!(reading(&changed), (3, 8), "{field} {value}");
        }
    }
    for (place, text) in D_PLACES.map(|place| (place, example_lines()[place - 1].clone())) {
        for (field, value) in [(1, 0), (1, 5), (1, 9_999_999), (4, 0), (6, 0)] {
            let changed = with_line(place, with_number(&text, field, value));
            assert_eq!(reading(&changed), (3, place as u64), "{field} {value}");
        }
    }
}

#[test]
fn ends_of_ranges_are_read() {
    for field in 2..=5 {
        for value in [1, 9_999_999] {
            let changed = with_line(2, with_number(&line('S', S), field, value));
            let survey = try_reading(&changed).unwrap();
            assert_eq!(survey.storeys[0].shears[field - 2], value as u64);
        }
    }
    let ends = [
        (2, -999_999, 9_999_999),
        (3, 0, 9_999_999),
        (4, 1, 9_999_999),
        (5, 0, 9_999_999),
        (6, 1, 9_999_999),
        (7, 0, 9_999_999),
        (8, 0, 9_999_999),
        (9, 0, 9_999_999),
    ];
    for place in D_PLACES {
        let text = &example_lines()[place - 1];
        for (field, least, most) in ends {
            for value in [least, most] {
                let changed = with_line(place, with_number(text, field, value));
                let survey = try_reading(&changed).unwrap();
                let member = &survey.members[(place - 3) / 5];
                let load = &member.cases[(place - 4) % 5];
                assert_eq!(load.values()[field - 2], value as i128);
            }
        }
    }
}

#[test]
fn four_to_seven() {
    let wide = with_number(&line('M', M1), 3, 301);
    assert_eq!(reading(&with_line(3, wide)), (4, 3));
    assert_eq!(reading(&with_line(8, line('M', M1))), (5, 8));
    let mut two_storeys = vec![line('B', "100 9000 3 0 0 2")];
    for _ in 0..2 {
        two_storeys.push(line('S', "7 1 1 1 1 1"));
        two_storeys.push(line('M', M1));
        two_storeys.extend(D1.map(|d| line('D', d)));
    }
    assert_eq!(reading(&two_storeys), (5, 8));
    two_storeys[7] = line('S', "8 1 1 1 1 1");
    assert!(try_reading(&two_storeys).is_ok());
    for after in ["\n", " ", "D", &line('D', D2[3]), &line('M', M1), "B\n"] {
        let mut lines = example_lines();
        lines.push(after.to_string());
        assert_eq!(reading(&lines), (6, 13));
    }
    let tall = line('B', "100 30001 3 0 0 1");
    assert_eq!(reading(&with_line(1, tall)), (7, 1));
    let high = line('B', "100 9000 11 0 0 1");
    assert_eq!(reading(&with_line(1, high)), (7, 1));
}

/// A member's row is taken at its M line.
#[test]
fn eight() {
    let file = example_file();
    assert_eq!(refused(read(&file, 0, 2)), (8, 2));
    assert_eq!(refused(read(&file, 1, 0)), (8, 3));
    assert_eq!(refused(read(&file, 1, 1)), (8, 8));
    assert!(read(&file, 1, 2).is_ok());
    // Before the fields of the M line and before its D lines.
    let bad = with_line(8, with_number(&line('M', M2), 1, 0)).concat();
    assert_eq!(refused(read(bad.as_bytes(), 1, 1)), (8, 8));
    let bad = with_line(9, line('D', D2[1])).concat();
    assert_eq!(refused(read(bad.as_bytes(), 1, 1)), (8, 8));
    // The D lines of the member that fits come first.
    let bad = with_line(7, line('D', D1[0])).concat();
    assert_eq!(refused(read(bad.as_bytes(), 1, 1)), (12, 7));
    // 1 before 8.
    let cut = &example_lines()[..7].concat();
    assert_eq!(refused(read(cut.as_bytes(), 1, 1)), (1, 8));
}

// ---- D lines ----

#[test]
fn a_d_line_missing() {
    for place in D_PLACES {
        let expected = match place {
            // The next D line stands in its place.
            4 | 5 | 6 | 9 | 10 | 11 => (12, place as u64),
            // The next M line, or nothing.
            _ => (1, place as u64),
        };
        assert_eq!(reading(&without_line(place)), expected);
    }
    // All four missing.
    let mut lines = example_lines();
    lines.drain(3..7);
    assert_eq!(reading(&lines), (1, 4));
    let mut lines = example_lines();
    lines.drain(8..12);
    assert_eq!(reading(&lines), (1, 9));
}

#[test]
fn a_d_line_doubled() {
    for place in D_PLACES {
        let text = example_lines()[place - 1].clone();
        let expected = match place {
            7 => (1, 8),
            12 => (6, 13),
            _ => (12, place as u64 + 1),
        };
        assert_eq!(reading(&with_line_before(place, text)), expected);
    }
    // A fifth line numbered 1.
    assert_eq!(reading(&with_line_before(8, line('D', D1[0]))), (1, 8));
}

#[test]
fn d_lines_swapped() {
    for one in 0..4 {
        for other in one + 1..4 {
            for first in [4, 9] {
                let mut lines = example_lines();
                lines.swap(first - 1 + one, first - 1 + other);
                assert_eq!(reading(&lines), (12, (first + one) as u64));
            }
        }
    }
    // Those of one member with those of the other, case for case: no fault.
    let mut lines = example_lines();
    for i in 3..7 {
        lines.swap(i, i + 5);
    }
    let swapped = try_reading(&lines).unwrap();
    let [m1, m2] = members();
    assert_eq!(swapped.members[0].cases, m2.cases);
    assert_eq!(swapped.members[1].cases, m1.cases);
}

#[test]
fn d_lines_misnumbered() {
    for place in D_PLACES {
        let text = &example_lines()[place - 1];
        let own = (place - 4) % 5 + 1;
        for number in 0..=6 {
            let changed = with_line(place, with_number(text, 1, number));
            if number == own as i64 {
                assert_eq!(try_reading(&changed).unwrap(), survey());
            } else if (1..=4).contains(&number) {
                assert_eq!(reading(&changed), (12, place as u64));
            } else {
                assert_eq!(reading(&changed), (3, place as u64));
            }
        }
        let changed = with_line(place, with_field(text, 1, &format!("     0{own} ")));
        assert_eq!(reading(&changed), (2, place as u64));
    }
}

/// 12 after the 1, 2 and 3 of its own line, before anything of a later one.
#[test]
fn where_twelve_comes() {
    let misnumbered = with_number(&line('D', D1[1]), 1, 4);
    assert_eq!(reading(&with_line(5, misnumbered.clone())), (12, 5));
    // Its tag and length.
    let changed = misnumbered.replace('\n', " \n");
    assert_eq!(reading(&with_line(5, changed)), (1, 5));
    let changed = misnumbered.replace('D', "M");
    assert_eq!(reading(&with_line(5, changed)), (1, 5));
    // Every field to the right.
    for field in 2..=9 {
        let changed = with_field(&misnumbered, field, "      00");
        assert_eq!(reading(&with_line(5, changed)), (2, 5));
    }
    for field in [4, 6] {
        let changed = with_number(&misnumbered, field, 0);
        assert_eq!(reading(&with_line(5, changed)), (3, 5));
    }
    // A number out of range is 3, before a later field's 2.
    let changed = with_field(&with_number(&misnumbered, 1, 5), 9, "      00");
    assert_eq!(reading(&with_line(5, changed)), (3, 5));
    // Whatever follows.
    let mut lines = with_line(5, misnumbered);
    for place in 6..=12 {
        lines[place - 1] = "x".to_string();
        assert_eq!(reading(&lines), (12, 5));
    }
    lines.truncate(5);
    assert_eq!(reading(&lines), (12, 5));
    lines.push("\n".to_string());
    assert_eq!(reading(&lines), (12, 5));
    // What stands in earlier lines comes first: 4 and 5 at the M line.
    lines[2] = with_number(&line('M', M1), 3, 301);
    assert_eq!(reading(&lines), (4, 3));
    let mut lines = with_line(8, line('M', M1));
    lines[8] = line('D', D2[3]);
    assert_eq!(reading(&lines), (5, 8));
    // 12 of an earlier D line before all of a later one.
    let mut lines = with_line(4, line('D', D1[3]));
    lines[4] = "D\n".to_string();
    assert_eq!(reading(&lines), (12, 4));
}

// ---- the program ----

fn e_line(number: u8, line: u64) -> Vec<u8> {
    format!("E{number:>12}{line:>12}\n").into_bytes()
}

#[test]
fn the_program_refuses() {
    let of = |lines: Vec<String>| determine(lines.concat().as_bytes());
    assert_eq!(of(without_line(4)), e_line(12, 4));
    assert_eq!(of(without_line(7)), e_line(1, 7));
    assert_eq!(of(without_line(12)), e_line(1, 12));
    assert_eq!(of(with_line(11, line('D', D2[3]))), e_line(12, 11));
    let mut file = example_file();
    file.resize(65_536, b'\n');
    assert_eq!(determine(&file), e_line(6, 13));
    file.push(b'\n');
    assert_eq!(determine(&file), e_line(8, 0));
}

/// 145 members in one storey are the most that the program can be given.
#[test]
fn the_longest_input() {
    let of = |count| {
        let survey = block(1, count);
        let file = write_survey(&survey.header, &survey.storeys, &survey.members, usize::MAX);
        (survey, file.unwrap())
    };
    let (survey, file) = of(145);
    assert_eq!(file.len(), B_BYTES + S_BYTES + 145 * MEMBER_BYTES);
    assert_eq!(file.len(), 65_350);
    let sheet = report(&survey.header, &survey.storeys, &survey.members, usize::MAX).unwrap();
    assert_eq!(determine(&file), sheet);
    assert_eq!(sheet.len(), 4 * (145 * 98 + 86) + 26);
    let (_, file) = of(146);
    assert_eq!(determine(&file), e_line(8, 0));
}

// ---- writing ----

fn written(survey: &Survey) -> Vec<u8> {
    write_survey(&survey.header, &survey.storeys, &survey.members, usize::MAX).unwrap()
}

/// Reading the file back gives the records, and writing these the file.
fn comes_back(survey: &Survey) -> Vec<u8> {
    let file = written(survey);
    let again = read(&file, survey.storeys.len(), survey.members.len()).unwrap();
    assert_eq!(again, *survey);
    assert_eq!(written(&again), file);
    file
}

#[test]
fn the_example_is_written() {
    let text = [
        "B     100    9000       3       0       0       1\n",
        "S       1    1000     500    2000     400       2\n",
        "M       1     300     300   90000     100     110    2200     270    3000     200",
        "     250     100       0       0       0     100       0    3150       0\n",
        "D       1    3150     600     200      60     100     200    9000       0\n",
        "D       2       0     600     200      60     100     200   18636       7\n",
        "D       3    7650     200     200     111     100     350    2501       0\n",
        "D       4     -10       0     200      60     100      71   18637       0\n",
        "M       2     300     300   90000     100     110    2200     270    3000     200",
        "     250     100       0       0       0     100       0    3600       0\n",
        "D       1    3150     400     200      60     100     700    9000       0\n",
        "D       2    5400     345     200      60     100     300    6363       0\n",
        "D       3    3150       0       1       0       1      50       0 9999999\n",
        "D       4    3150     100     300       0     100       0       0       0\n",
    ]
    .concat();
    let file = comes_back(&survey());
    assert_eq!(file, text.as_bytes());
    assert_eq!(file, example_file());
    assert_eq!(file.len(), B_BYTES + S_BYTES + 2 * MEMBER_BYTES);
}

#[test]
fn the_longest_numbers() {
    let load = members()[0].cases[0];
    let longest = independent::LoadCase {
        n_k: -999_999,
        m_e: 9_999_999,
        m_p: 9_999_999,
        v_e: 9_999_999,
        v_r: 9_999_999,
        v: 9_999_999,
        rotation: 9_999_999,
        drift: 9_999_999,
    };
    let mut m = members()[0];
    m.number = 9_999_999;
    m.n_d = -999_999;
    m.cases = [longest, load, longest, longest];
    let mut survey = survey();
    survey.storeys[0].number = 9_999_999;
    survey.storeys[0].shears = [9_999_999; 4];
    survey.members[1] = m;
    let text = String::from_utf8(comes_back(&survey)).unwrap();
    let lines: Vec<&str> = text.lines().collect();
    assert_eq!(
        lines[1],
        "S 9999999 9999999 9999999 9999999 9999999       2"
    );
    assert!(lines[7].starts_with("M 9999999     300"));
    assert!(lines[7].ends_with("       0 -999999       0"));
    assert_eq!(
        lines[11],
        "D       4 -999999 9999999 9999999 9999999 9999999 9999999 9999999 9999999"
    );
    assert_eq!(text.len(), example_file().len());
}

#[test]
fn the_largest_file() {
    let survey = block(10, 200);
    let file = comes_back(&survey);
    assert_eq!(file.len(), B_BYTES + 10 * S_BYTES + 2_000 * MEMBER_BYTES);
    assert_eq!(file.len(), 900_550);
    let of = |room| write_survey(&survey.header, &survey.storeys, &survey.members, room);
    assert_eq!(refused(of(900_549)), (11, 0));
    assert_eq!(of(900_550).unwrap(), file);
    let sheet = report(&survey.header, &survey.storeys, &survey.members, usize::MAX).unwrap();
    assert_eq!(sheet.len(), 10 * 4 * (200 * 98 + 86) + 26);
}

#[test]
fn eleven() {
    let file = example_file();
    let of = |room| write_survey(&header(), &[storey()], &members(), room);
    for room in 0..file.len() {
        assert_eq!(refused(of(room)), (11, 0));
    }
    assert_eq!(of(file.len()).unwrap(), file);
}

/// The same example in both forms: each is written in its own.
#[test]
fn written_in_its_own_form() {
    let old = common::example_file();
    let survey = read(&old, 1, 2).unwrap();
    assert_eq!(survey.header.form, OLD_FORM);
    assert_eq!(written(&survey), old);
    assert_eq!(determine(&old), common::EXAMPLE_SHEET.as_bytes());
    // Its first case alone is the worked example.
    let mut in_cases = read(&example_file(), 1, 2).unwrap();
    in_cases.header.form = OLD_FORM;
    for s in &mut in_cases.storeys {
        s.shears[1..].fill(0);
    }
    for m in &mut in_cases.members {
        m.cases[1..].fill(Default::default());
    }
    assert_eq!(in_cases, survey);
}

/// An accepted file, read and written, is the same bytes; so are its findings.
#[test]
fn accepted_files_come_back() {
    let mut draw = common::draw::Draw(20_210_007);
    let mut refusals = [0; 13];
    for _ in 0..20_000 {
        let mut file = example_file();
        for _ in 0..=draw.below(2) {
            let place = draw.below(file.len() as u64) as usize;
            file[place] = b"0123456789 -\nBSMD"[draw.below(17) as usize];
        }
        match read(&file, 10, 320) {
            Ok(survey) => {
                assert_eq!(written(&survey), file);
                refusals[0] += 1;
            }
            Err(refusal) => {
                assert_eq!(determine(&file), e_line(refusal.number, refusal.line));
                refusals[refusal.number as usize] += 1;
            }
        }
    }
    for number in [0, 1, 2, 3, 4, 5, 7, 12] {
        assert!(refusals[number] > 0, "{refusals:?}");
    }
    for number in [8, 9, 10, 11] {
        assert_eq!(refusals[number], 0);
    }
}

#[test]
fn lines_in_survey_order() {
    let mut survey = block(2, 2);
    survey.storeys[0].count = 1;
    survey.storeys[1].count = 3;
    survey.members[1] = Member {
        number: 7,
        ..survey.members[1]
    };
    survey.header = Header {
        tilt_2: 25_001,
        ..survey.header
    };
    let text = String::from_utf8(comes_back(&survey)).unwrap();
    let heads: String = text
        .lines()
        .map(|l| l[..9].split_whitespace().collect::<String>() + " ")
        .collect();
    let d = "D1 D2 D3 D4 ";
    assert_eq!(heads, format!("B100 S2 M2 {d}S1 M7 {d}M2 {d}M1 {d}"));
}
