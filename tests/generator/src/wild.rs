//! Records with values out of range, and surveys that are refused.

use crate::checks::{check_header, check_member, check_storey};
use crate::edges::{edge_member, range};
use crate::rng::Rng;
use crate::surveys::{any_form, valid_survey};
use independent::lines::{cases_of, s_line, Field, CASES, CASE_FORM, LOAD_CASE, MEMBER};
use independent::{Header, LoadCase, Member, Storey, Survey};

/// Out of least to most, or at least extreme, as an unsigned field holds it.
fn wild_value(rng: &mut Rng, least: i128, most: i128) -> i128 {
    match rng.below(10) {
        0 | 1 => (least - 1).max(0),
        2..=4 => most + 1,
        5 => u64::MAX as i128,
        6 => rng.pick(&[
            u64::MAX - 1,
            1 << 63,
            i64::MAX as u64,
            u32::MAX as u64,
            1 << 32,
        ]) as i128,
        7 => rng.next() as i128,
        8 => most + rng.between(1, 1_000),
        // The low 32 bits would be in range.
        _ => (1 << 32) + least.max(0),
    }
}

/// The same for a field with a sign.
fn wild_force(rng: &mut Rng, least: i128, most: i128) -> i128 {
    match rng.below(8) {
        0 | 1 => least - 1,
        2 | 3 => most + 1,
        4 => i64::MIN as i128,
        5 => i64::MAX as i128,
        6 => rng.next() as i64 as i128,
        _ => rng.pick(&[i64::MIN + 1, i64::MAX - 1, -(1 << 32), 1 << 32]) as i128,
    }
}

fn how_many(rng: &mut Rng, fields: usize) -> usize {
    match rng.below(10) {
        0..=5 => 1,
        6 | 7 => 2,
        8 => 3,
        _ => fields,
    }
}

fn wild(rng: &mut Rng, field: Field) -> i128 {
    let (least, most) = range(field);
    if field.minus_may_stand() {
        wild_force(rng, least, most)
    } else {
        wild_value(rng, least, most)
    }
}

/// Not 0, for a case that the form lacks: in range elsewhere or out of it.
fn not_zero(rng: &mut Rng, field: Field) -> i128 {
    let (_, most) = range(field);
    match rng.below(4) {
        0 | 1 => rng.pick(&[1, 1, most]),
        2 => rng.between(1, most),
        _ => wild(rng, field).max(1),
    }
}

/// A member of a form with one or several fields out of range, a case that
/// the form lacks not 0, or short above long.
pub fn wild_member(rng: &mut Rng, form: u64) -> Member {
    loop {
        let mut m = edge_member(rng, form);
        let sides = rng.chance(25);
        if sides {
            m.short_side = rng.pick(&[m.long_side + 1, 99_999, m.long_side + 100]);
        }
        if !sides || rng.chance(20) {
            for _ in 0..how_many(rng, 27) {
                spoil_member(rng, form, &mut m);
            }
        }
        if check_member(form, &m).is_err() {
            return m;
        }
    }
}

/// One field of a member or of one of its cases, in the old form oftener of
/// the first.
fn spoil_member(rng: &mut Rng, form: u64, m: &mut Member) {
    let field = rng.index(MEMBER.len() + CASES * LOAD_CASE.len());
    if field < MEMBER.len() {
        let mut values = m.values();
        values[field] = wild(rng, MEMBER[field]);
        *m = Member::from_values(&values, m.cases);
        return;
    }
    let (mut i, j) = (
        (field - MEMBER.len()) / LOAD_CASE.len(),
        (field - MEMBER.len()) % LOAD_CASE.len(),
    );
    if form != CASE_FORM && rng.chance(50) {
        i = 0;
    }
    let mut values = m.cases[i].values();
    values[j] = if i < cases_of(form) {
        wild(rng, LOAD_CASE[j])
    } else {
        not_zero(rng, LOAD_CASE[j])
    };
    m.cases[i] = LoadCase::from_values(&values);
}

/// A storey of a form with one or several fields out of range, or a shear of a
/// case that the form lacks not 0.
pub fn wild_storey(rng: &mut Rng, form: u64) -> Storey {
    let fields = s_line(form).fields;
    loop {
        let spread = |&field: &Field| {
            let (least, most) = range(field);
            rng.spread(least, most)
        };
        let mut values: Vec<i128> = fields.iter().map(spread).collect();
        let lacking = CASES - cases_of(form);
        let mut shears = [0; CASES];
        for _ in 0..how_many(rng, 3) {
            let field = rng.index(fields.len() + lacking);
            if field < fields.len() {
                values[field] = wild(rng, fields[field]);
            } else {
                let case = CASES - 1 - (field - fields.len());
                shears[case] = not_zero(rng, fields[1]) as u64;
            }
        }
        let mut s = Storey::from_values(&values, form);
        for i in cases_of(form)..CASES {
            s.shears[i] = shears[i];
        }
        if check_storey(form, &s).is_err() {
            return s;
        }
    }
}

/// A form that there is not.
pub fn unknown_form(rng: &mut Rng) -> u64 {
    rng.pick(&[0, 3, 4, 257, 258, u64::MAX, (1 << 32) + 1, (1 << 32) + 2])
}

/// A header with one or several fields out of range, of an unknown form, or
/// beyond low-rise.
pub fn wild_header(rng: &mut Rng) -> Header {
    loop {
        let mut form = any_form(rng);
        let n_s = rng.spread(1, 10);
        let mut fields = [
            rng.pick(&[90, 100]),
            rng.spread(1, 30_000),
            n_s,
            rng.spread(0, 9_999_999),
            rng.spread(0, 9_999_999),
            rng.spread(1, n_s),
        ];
        for _ in 0..how_many(rng, 6) {
            match rng.below(9) {
                0 => fields[0] = rng.pick(&[0, 1, 89, 91, 95, 99, 101, u64::MAX as i128]),
                1 => fields[1] = wild_value(rng, 1, 99_999),
                2 => fields[2] = wild_value(rng, 1, 99),
                3 => fields[3] = wild_value(rng, 0, 9_999_999),
                4 => fields[4] = wild_value(rng, 0, 9_999_999),
                5 => fields[5] = wild_value(rng, 1, fields[2]),
                6 => fields[1] = rng.pick(&[30_001, 99_999, 30_002]),
                7 => form = unknown_form(rng),
                _ => fields[2] = rng.pick(&[11, 99, 12]),
            }
        }
        let h = Header::from_values(&fields, form);
        if check_header(&h).is_err() {
            return h;
        }
    }
}

/// A survey as records with one or several things wrong. Now and then what
/// was spoiled is still good, or two wrongs make it so.
pub fn wild_survey(rng: &mut Rng) -> Survey {
    let mut survey = valid_survey(rng);
    for _ in 0..rng.pick(&[1, 1, 1, 2, 3]) {
        spoil(rng, &mut survey);
    }
    survey
}

fn spoil(rng: &mut Rng, survey: &mut Survey) {
    let storeys = survey.storeys.len();
    let members = survey.members.len();
    if storeys == 0 || members == 0 {
        survey.header = wild_header(rng);
        return;
    }
    let (i, j) = (rng.index(storeys), rng.index(members));
    let form = survey.header.form;
    match rng.below(16) {
        0 => {
            let count = survey.header.storey_count;
            survey.header = wild_header(rng);
            if rng.chance(70) {
                survey.header.storey_count = count;
            }
            if rng.chance(50) {
                survey.header.form = form;
            }
        }
        1 => {
            let count = survey.storeys[i].count;
            survey.storeys[i] = wild_storey(rng, form);
            if rng.chance(70) {
                survey.storeys[i].count = count;
            }
        }
        2 | 3 => survey.members[j] = wild_member(rng, form),
        4 => {
            let other = rng.index(storeys);
            survey.storeys[i].number = survey.storeys[other].number;
        }
        5 | 6 => {
            // Mostly neighbours, so of one storey.
            let other = if rng.chance(80) {
                j.saturating_sub(1)
            } else {
                rng.index(members)
            };
            survey.members[j].number = survey.members[other].number;
        }
        7 => survey.header.storey_count = lie(rng, survey.header.storey_count),
        8 => survey.storeys[i].count = lie(rng, survey.storeys[i].count),
        9 => {
            // The total stays right.
            let other = rng.index(storeys);
            let moved = rng.below(survey.storeys[i].count.saturating_add(1));
            survey.storeys[i].count -= moved;
            survey.storeys[other].count = survey.storeys[other].count.saturating_add(moved);
        }
        10 => {
            survey.members.remove(j);
        }
        11 => {
            let again = survey.members[j];
            survey.members.insert(j, again);
            if rng.chance(50) {
                let count = &mut survey.storeys[i].count;
                *count = count.saturating_add(1);
            }
        }
        12 => {
            if rng.chance(50) {
                survey.storeys.remove(i);
            } else {
                survey.storeys.push(Storey {
                    number: 5_555_555,
                    shears: [1, 0, 0, 0],
                    count: 0,
                });
                survey.header.storey_count = survey.header.storey_count.saturating_add(1);
            }
        }
        13 => survey.header.form = unknown_form(rng),
        14 => survey.header.form = any_form(rng),
        _ => {
            // One storey of 201 members.
            let (m, shears) = (survey.members[j], survey.storeys[i].shears);
            survey.members = (1..=201).map(|number| Member { number, ..m }).collect();
            survey.storeys = vec![Storey {
                number: 1,
                shears,
                count: 201,
            }];
            survey.header.storey_count = 1;
        }
    }
}

fn lie(rng: &mut Rng, count: u64) -> u64 {
    match rng.below(6) {
        0 | 1 => count.wrapping_add(1),
        2 | 3 => count.wrapping_sub(1),
        4 => 0,
        _ => rng.pick(&[201, 11, 100, u64::MAX, 1 << 32]),
    }
}
