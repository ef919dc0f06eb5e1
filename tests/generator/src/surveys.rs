//! Whole surveys that are accepted, at the edges of storey and building.

use crate::cases::{member_in_case, storey_in_case};
use crate::checks::check_member;
use crate::edges::{edge_member_for, force_for, is_wall, load_case, range};
use crate::rng::Rng;
use crate::sizes::members_most;
use independent::lines::{cases_of, CASE_FORM, LOAD_CASE, MEMBER, OLD_FORM};
use independent::{judge_member, judge_storey, Header, LoadCase, Member, Storey, Survey};

/// Either form.
pub fn any_form(rng: &mut Rng) -> u64 {
    rng.pick(&[OLD_FORM, CASE_FORM])
}

/// An accepted survey of either form whose file fits 65,536 bytes.
pub fn valid_survey(rng: &mut Rng) -> Survey {
    let form = any_form(rng);
    valid_survey_of(rng, form)
}

/// The same of this form.
pub fn valid_survey_of(rng: &mut Rng, form: u64) -> Survey {
    let k = rng.pick(&[90, 100]);
    let calm = rng.chance(45);
    let sizes = sizes(rng, form);
    let numbers = distinct_numbers(rng, sizes.len());
    let mut survey = Survey::default();
    for (&count, &number) in sizes.iter().zip(&numbers) {
        let mut members = members(rng, k, form, count, calm);
        let storey = storey(rng, k, form, number, &mut members);
        survey.storeys.push(storey);
        survey.members.extend(members);
    }
    survey.header = header(rng, k, form, sizes.len() as u64);
    survey
}

/// How many members each storey has.
fn sizes(rng: &mut Rng, form: u64) -> Vec<usize> {
    let several = |rng: &mut Rng, storeys: usize, most: i128| -> Vec<usize> {
        (0..storeys)
            .map(|_| rng.between(1, most) as usize)
            .collect()
    };
    match rng.below(100) {
        0 | 1 => largest(rng, form),
        2 | 3 => vec![members_most(form, 1) - rng.index(2)],
        4..=11 => vec![rng.pick(&[4, 5, 20, 20, 21, 21])],
        12..=19 => {
            let storeys = rng.between(1, 10) as usize;
            several(rng, storeys, if form == CASE_FORM { 14 } else { 20 })
        }
        20..=23 => several(rng, 10, 3),
        _ => {
            let storeys = rng.between(1, 3) as usize;
            several(rng, storeys, 6)
        }
    }
}

/// As many members as fit 65,536 bytes with this number of storeys.
fn largest(rng: &mut Rng, form: u64) -> Vec<usize> {
    let storeys = rng.between(2, 10) as usize;
    let total = members_most(form, storeys);
    let mut sizes = vec![total / storeys; storeys];
    sizes[0] += total % storeys;
    // Shift some members about, none above 200 and none below 1.
    for _ in 0..storeys {
        let (from, to) = (rng.index(storeys), rng.index(storeys));
        let many = rng.index(sizes[from].min(201 - sizes[to]).max(1));
        sizes[from] -= many;
        sizes[to] += many;
    }
    sizes
}

/// Numbers of storeys or members, all different.
fn distinct_numbers(rng: &mut Rng, count: usize) -> Vec<u64> {
    let mut numbers: Vec<u64> = match rng.below(4) {
        0 => (0..count as u64).map(|i| 9_999_999 - i).collect(),
        1 => {
            let step = rng.between(1, 40_000) as u64;
            (0..count as u64).map(|i| 1 + i * step).collect()
        }
        _ => (1..=count as u64).collect(),
    };
    if rng.chance(40) {
        for i in (1..numbers.len()).rev() {
            let j = rng.index(i + 1);
            numbers.swap(i, j);
        }
    }
    numbers
}

fn header(rng: &mut Rng, k: u64, form: u64, storey_count: u64) -> Header {
    Header {
        knowledge: k,
        height: rng.spread(1, 30_000) as u64,
        storeys: rng.spread(storey_count as i128, 10) as u64,
        tilt_1: tilt(rng),
        tilt_2: tilt(rng),
        storey_count,
        form,
    }
}

fn tilt(rng: &mut Rng) -> u64 {
    match rng.below(10) {
        0 => 25_001,
        1 | 2 => 25_000,
        3 => 24_999,
        4 if rng.chance(30) => 9_999_999,
        5 => rng.below(30_000),
        _ => 0,
    }
}

/// A storey for these members, which are brought to its edges in each case.
fn storey(rng: &mut Rng, k: u64, form: u64, number: u64, members: &mut [Member]) -> Storey {
    let mut storey = Storey {
        number,
        shears: [0; 4],
        count: members.len() as u64,
    };
    damage_edge(rng, members);
    sum_edge(rng, members);
    for i in 0..cases_of(form) {
        storey.shears[i] = shear(rng);
        wall_share_edge(rng, i, &mut storey, members);
        share_edge(rng, k, i, &storey, members);
    }
    storey
}

/// In a calm building most members carry next to nothing.
fn members(rng: &mut Rng, k: u64, form: u64, count: usize, calm: bool) -> Vec<Member> {
    let numbers = distinct_numbers(rng, count);
    let mut members: Vec<Member> = Vec::new();
    for &number in &numbers {
        let mut m = match members.last() {
            Some(before) if rng.chance(20) => twin(rng, k, form, before),
            _ => edge_member_for(rng, k, form),
        };
        if calm && rng.chance(80) {
            for case in &mut m.cases {
                case.m_e = 0;
                case.rotation = 0;
            }
        }
        m.number = number;
        members.push(m);
    }
    members
}

/// The member before, with one mark or value changed a little, or one case
/// made anew.
fn twin(rng: &mut Rng, k: u64, form: u64, before: &Member) -> Member {
    let mut m = *before;
    let i = rng.index(cases_of(form));
    match rng.below(7) {
        0 => m.strengthened = 1 - m.strengthened,
        1 => m.boundary_zone = 1 - m.boundary_zone,
        2 => m.annex_e = 1 - m.annex_e,
        3 => m.factor = rng.pick(&[0, 50, 100]),
        4 => {
            let mut values = m.values();
            let field = rng.between(1, MEMBER.len() as i128 - 1) as usize;
            let (least, most) = range(MEMBER[field]);
            values[field] = rng.beside(values[field]).clamp(least, most);
            m = Member::from_values(&values, m.cases);
        }
        5 => {
            let mut values = m.cases[i].values();
            let field = rng.index(LOAD_CASE.len());
            let (least, most) = range(LOAD_CASE[field]);
            values[field] = rng.beside(values[field]).clamp(least, most);
            m.cases[i] = LoadCase::from_values(&values);
        }
        _ => m.cases[i] = load_case(rng, k, &m),
    }
    if check_member(form, &m).is_ok() {
        m
    } else {
        *before
    }
}

fn shear(rng: &mut Rng) -> u64 {
    match rng.below(6) {
        0 => rng.spread(1, 9_999_999) as u64,
        1 => 1_000,
        2 => 40 * rng.between(1, 500) as u64,
        3 => 40 * rng.between(1, 200_000) as u64,
        _ => rng.between(1, 20_000) as u64,
    }
}

/// Damage at its threshold, just below it, or none.
fn damage_edge(rng: &mut Rng, members: &mut [Member]) {
    let weight = |kind: u64| [0, 20, 28, 35, 140][kind as usize];
    match rng.below(10) {
        0 | 1 => {
            let most = 7 * members.len() as u64;
            let mut left = most;
            for m in members.iter_mut() {
                m.damage_kind = 0;
            }
            let first = rng.index(members.len());
            for i in 0..members.len() {
                let kind = rng.between(1, 4) as u64;
                if weight(kind) <= left {
                    let place = (first + i) % members.len();
                    members[place].damage_kind = kind;
                    left -= weight(kind);
                }
            }
        }
        2 => {
            // One alone among many.
            for m in members.iter_mut() {
                m.damage_kind = 0;
            }
            let place = rng.index(members.len());
            members[place].damage_kind = rng.pick(&[1, 2, 3, 4, 4, 4]);
        }
        3 => {}
        _ => {
            for m in members.iter_mut() {
                m.damage_kind = 0;
            }
        }
    }
}

/// Σ at or beside 10,000 c, 65,000 c or half way, or anywhere.
fn sum_edge(rng: &mut Rng, members: &mut [Member]) {
    let each = match rng.below(10) {
        0 | 1 | 2 => 10_000,
        3 | 4 | 5 => 65_000,
        6 => 37_500,
        7 => rng.between(0, 80_000),
        _ => return,
    };
    let total = rng.beside(each * members.len() as i128);
    let mut sum = 0;
    let last = members.len() - 1;
    for (i, m) in members.iter_mut().enumerate() {
        let target = if i == last {
            (total - sum).max(0)
        } else if rng.chance(20) {
            rng.between(0, 2 * each)
        } else {
            each
        };
        m.n_d = force_for(m, target);
        let alone = member_in_case(0, m);
        let found = judge_member(100, OLD_FORM, [false; 4], &alone).expect("a good member");
        sum += found[0].n_d as i128;
    }
}

/// The walls' V in case `i`, from 0, at or beside 0.40 of the storey shear.
fn wall_share_edge(rng: &mut Rng, i: usize, storey: &mut Storey, members: &mut [Member]) {
    let Some(wall) = members.iter().position(is_wall) else {
        return;
    };
    let total: i128 = members
        .iter()
        .filter(|m| is_wall(m))
        .map(|m| m.cases[i].v as i128)
        .sum();
    match rng.below(6) {
        0 | 1 | 2 => {
            // The first wall makes up the total.
            let needed = (2 * storey.shears[i] as i128 + 4) / 5;
            let v = rng.beside(needed) - (total - members[wall].cases[i].v as i128);
            if (0..=9_999_999).contains(&v) {
                members[wall].cases[i].v = v as u64;
            }
        }
        3 | 4 => {
            let shear = rng.beside(5 * total / 2);
            if (1..=9_999_999).contains(&shear) {
                storey.shears[i] = shear as u64;
            }
        }
        _ => {}
    }
}

/// P in case `i`, from 0, at or beside the allowed share, by the V of one
/// column that is over.
fn share_edge(rng: &mut Rng, k: u64, i: usize, storey: &Storey, members: &mut [Member]) {
    if rng.chance(30) {
        return;
    }
    let alone: Vec<Member> = members.iter().map(|m| member_in_case(i, m)).collect();
    let found =
        judge_storey(k, OLD_FORM, &storey_in_case(i, storey), &alone).expect("a good storey");
    let case = found.cases[0];
    let is_over = |m: &Member| {
        let found = judge_member(k, OLD_FORM, [case.meets_wall_share; 4], m);
        found.expect("a good member")[0].over
    };
    let over_columns: Vec<usize> = (0..alone.len())
        .filter(|&j| !is_wall(&alone[j]) && is_over(&alone[j]))
        .collect();
    if over_columns.is_empty() {
        return;
    }
    let (c, sum) = (found.c as i128, found.sum as i128);
    let share = (65_000 * c - sum).clamp(0, 55_000 * c);
    let most = 7 * share * case.w as i128 / (1_100_000 * c);
    let target = rng.beside(most);
    let chosen = over_columns[rng.index(over_columns.len())];
    let mut others = case.p as i128 - members[chosen].cases[i].v as i128;
    if others > target {
        for &j in &over_columns {
            let v = &mut members[j].cases[i].v;
            others -= if j == chosen { 0 } else { *v as i128 };
            *v = 0;
        }
    }
    if (0..=9_999_999).contains(&(target - others)) {
        members[chosen].cases[i].v = (target - others) as u64;
    }
}
