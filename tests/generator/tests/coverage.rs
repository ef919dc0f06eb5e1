//! What the generator makes: accepted surveys, every refusal, every edge.

use generator::*;
use independent::lines::{b_line, cases_of, d_line, m_line, s_line, Line as Kind};
use independent::lines::{CASE_FORM, LOAD_CASE, MEMBER, OLD_FORM};
use independent::{determine, judge_building, judge_member, judge_storey, read, report};
use std::collections::{BTreeMap, BTreeSet};

#[test]
fn same_seed_same_input() {
    for seed in 0..200 {
        assert_eq!(any_file(&mut Rng::new(seed)), any_file(&mut Rng::new(seed)));
        for form in [OLD_FORM, CASE_FORM] {
            assert_eq!(
                edge_member(&mut Rng::new(seed), form),
                edge_member(&mut Rng::new(seed), form)
            );
        }
    }
    assert_ne!(any_file(&mut Rng::new(1)), any_file(&mut Rng::new(2)));
}

fn valid_surveys_are_accepted(form: u64) {
    let (mut risky, mut sound, mut largest) = (0, 0, 0);
    for seed in 0..2_000 {
        let survey = valid_survey_of(&mut Rng::new(seed), form);
        let Survey {
            header,
            storeys,
            members,
        } = &survey;
        let file = write_survey(&survey);
        assert!(file.len() <= INPUT_MOST && file.len() == file_len(&survey));
        largest = largest.max(file.len());
        assert_eq!(
            read(&file, storeys.len(), members.len()),
            Ok(survey.clone()),
            "{}",
            seed
        );
        let building = judge_building(header, storeys, members).unwrap();
        if building.risky {
            risky += 1;
        } else {
            sound += 1;
        }
        let sheet = report(header, storeys, members, usize::MAX).unwrap();
        assert_eq!(sheet.len(), sheet_len(&survey));
        assert_eq!(determine(&file), sheet);
    }
    assert!(risky > 200 && sound > 200, "{} risky, {} not", risky, sound);
    assert!(largest > INPUT_MOST - member_bytes(form), "{}", largest);
}

#[test]
fn valid_surveys_of_the_old_form() {
    valid_surveys_are_accepted(OLD_FORM);
}

#[test]
fn valid_surveys_in_cases() {
    valid_surveys_are_accepted(CASE_FORM);
}

#[test]
fn half_the_surveys_are_in_cases() {
    let forms = (0..1_000).map(|seed| valid_survey(&mut Rng::new(seed)).header.form);
    let cases = forms.filter(|&form| form == CASE_FORM).count();
    assert!((400..600).contains(&cases), "{} of 1,000", cases);
}

#[test]
fn every_refusal_of_a_file() {
    let mut seen: BTreeMap<u8, u64> = BTreeMap::new();
    let (mut accepted, mut too_long) = ([0, 0], 0);
    for seed in 0..6_000 {
        let mut rng = Rng::new(seed);
        let file = any_file(&mut rng);
        let (storey_rows, member_rows) = lent_rows(&mut rng, &file);
        match read(&file, storey_rows, member_rows) {
            Ok(survey) => accepted[survey.header.form as usize - 1] += 1,
            Err(refusal) => {
                assert!(refusal.line >= 1);
                *seen.entry(refusal.number).or_default() += 1;
            }
        }
        let out = determine(&file);
        if file.len() > INPUT_MOST {
            too_long += 1;
            assert_eq!(out, format!("E{:>12}{:>12}\n", 8, 0).into_bytes());
        }
    }
    assert!(accepted.iter().all(|&n| n > 500) && too_long > 30);
    for number in FILE_REFUSALS {
        let count = seen.get(&number).copied().unwrap_or(0);
        assert!(count >= 30, "refusal {} came up {} times", number, count);
    }
    assert_eq!(seen.len(), FILE_REFUSALS.len());
}

/// What a file may be refused by.
const FILE_REFUSALS: [u8; 9] = [1, 2, 3, 4, 5, 6, 7, 8, 12];

#[test]
fn wild_records_are_refused() {
    let mut seen: BTreeMap<u8, u64> = BTreeMap::new();
    for seed in 0..3_000 {
        let mut rng = Rng::new(seed);
        let form = any_form(&mut rng);
        let (m, s, h) = (
            wild_member(&mut rng, form),
            wild_storey(&mut rng, form),
            wild_header(&mut rng),
        );
        assert!(check_member(form, &m).is_err());
        assert!(check_storey(form, &s).is_err());
        assert!(check_header(&h).is_err());
        for k in [90, 100, rng.next()] {
            assert!(judge_member(k, form, [true; 4], &m).is_err());
            assert!(judge_storey(k, form, &s, &[m]).is_err());
        }
        assert!(judge_building(&h, &[s], &[m]).is_err());

        let Survey {
            header,
            storeys,
            members,
        } = wild_survey(&mut rng);
        let of_building = judge_building(&header, &storeys, &members).map(|_| ());
        let of_report = report(&header, &storeys, &members, usize::MAX).map(|_| ());
        assert_eq!(of_building, of_report);
        if let Err(refusal) = of_building {
            assert_eq!(refusal.line, 0);
            *seen.entry(refusal.number).or_default() += 1;
        }
    }
    for number in [1, 3, 4, 5, 7] {
        let count = seen.get(&number).copied().unwrap_or(0);
        assert!(count >= 20, "refusal {} came up {} times", number, count);
    }
}

/// Every field of a record out of its range, and every field of a case that the
/// old form lacks not 0.
#[test]
fn every_field_is_spoilt() {
    let mut t = Tally::default();
    for form in [OLD_FORM, CASE_FORM] {
        for seed in 0..4_000 {
            let mut rng = Rng::new(seed);
            let m = wild_member(&mut rng, form);
            for (j, (field, value)) in MEMBER.iter().zip(m.values()).enumerate() {
                t.note(&format!("{form} M {j}"), !field.allows(value, &[]));
            }
            for (i, case) in m.cases.iter().enumerate() {
                for (j, (field, value)) in LOAD_CASE.iter().zip(case.values()).enumerate() {
                    let present = i < cases_of(form);
                    let bad = if present {
                        !field.allows(value, &[])
                    } else {
                        value != 0
                    };
                    t.note(&format!("{form} case {i} field {j}"), bad);
                }
            }
            let s = wild_storey(&mut rng, form);
            for (i, &shear) in s.shears.iter().enumerate() {
                let good = if i < cases_of(form) {
                    1..=9_999_999
                } else {
                    0..=0
                };
                t.note(&format!("{form} shear {i}"), !good.contains(&shear));
            }
            let h = wild_header(&mut rng);
            t.note("form", h.form != OLD_FORM && h.form != CASE_FORM);
        }
    }
    t.all_hit(10);
}

// ---- orders of refusal ----

/// The lines of a good survey of a form with one member.
fn good_lines(form: u64) -> Vec<Line> {
    let ones = LoadCase::from_values(&[1; 8]);
    let mut values = [1; MEMBER.len()];
    values[1] = 99_999;
    let mut cases = one_case(ones);
    cases[..cases_of(form)].fill(ones);
    let mut storey = Storey::from_values(&[1; 6], form);
    storey.count = 1;
    let header = Header::from_values(&[100, 1, 10, 0, 0, 1], form);
    survey_lines(&header, &[storey], &[Member::from_values(&values, cases)])
}

/// 2 or 3 if this field of a line is refused by itself, else 0.
fn fault_of_field(form: u64, line: &[u8], field: usize) -> u8 {
    let tag = line[0];
    let text = |field: usize| &line[1 + (field - 1) * 8..1 + field * 8];
    let mut lines = good_lines(form);
    let i = lines.iter().position(|line| line.tag == tag).unwrap();
    if tag == b'B' && field == 6 {
        // The last field runs to n_s.
        lines[i].set_raw(3, text(3));
    }
    lines[i].set_raw(field, text(field));
    match read(&file_of(&lines), 10, 320) {
        Err(refusal) if refusal.number == 2 || refusal.number == 3 => refusal.number,
        _ => 0,
    }
}

/// The refusals of 2 and 3 in a line of the right length, from the left.
fn faults_of_fields(form: u64, line: &[u8]) -> Vec<u8> {
    let fields = (line.len() - 2) / 8;
    (1..=fields)
        .map(|field| fault_of_field(form, line, field))
        .filter(|&number| number != 0)
        .collect()
}

fn value(line: &[u8], field: usize) -> i128 {
    let text = String::from_utf8_lossy(&line[1 + (field - 1) * 8..1 + field * 8]).to_string();
    text.trim().parse().unwrap_or(0)
}

/// The lines of a form.
fn kinds(form: u64) -> Vec<Kind> {
    let mut kinds = vec![b_line(), s_line(form), m_line(form)];
    if form == CASE_FORM {
        kinds.push(d_line());
    }
    kinds
}

/// The form that line 2 tells.
fn form_of(lines: &[&[u8]]) -> u64 {
    let tells = |line: &&[u8]| line.len() == s_line(CASE_FORM).length();
    if lines.get(1).is_some_and(tells) {
        CASE_FORM
    } else {
        OLD_FORM
    }
}

/// All that could be refused in this line, in the order of the paper.
fn faults_of_line(lines: &[&[u8]], i: usize, rows: (usize, usize)) -> Vec<u8> {
    let (line, form) = (lines[i], form_of(lines));
    let due = |kind: Kind| kind.tag == line[0] && kind.length() == line.len();
    if !kinds(form).into_iter().any(due) || line[line.len() - 1] != b'\n' {
        return Vec::new();
    }
    let tag = line[0];
    let mut faults = Vec::new();
    let before = lines[..i].iter().filter(|l| l[0] == tag).count();
    let lent = if tag == b'S' { rows.0 } else { rows.1 };
    if (tag == b'S' || tag == b'M') && before >= lent {
        faults.push(8);
    }
    faults.extend(faults_of_fields(form, line));
    if tag == b'M' && value(line, 3) > value(line, 2) {
        faults.push(4);
    }
    let mut earlier = lines[..i]
        .iter()
        .rev()
        .take_while(|l| tag == b'S' || l[0] == b'M' || l[0] == b'D');
    if (tag == b'S' || tag == b'M') && earlier.any(|l| l[0] == tag && l[1..9] == line[1..9]) {
        faults.push(5);
    }
    if tag == b'B' && (value(line, 2) > 30_000 || value(line, 3) > 10) {
        faults.push(7);
    }
    let cases_before = lines[..i].iter().rev().take_while(|l| l[0] == b'D').count();
    if tag == b'D' && value(line, 1) != cases_before as i128 + 1 {
        faults.push(12);
    }
    faults
}

#[test]
fn orders_come_up() {
    let mut t = Tally::default();
    let pairs = [
        (2, 3),
        (3, 2),
        (2, 4),
        (3, 4),
        (2, 5),
        (3, 5),
        (4, 5),
        (2, 7),
        (3, 7),
        (8, 2),
        (8, 3),
        (8, 4),
        (8, 5),
        (2, 12),
        (3, 12),
    ];
    for seed in 0..8_000 {
        let mut rng = Rng::new(seed);
        let file = any_file(&mut rng);
        let rows = lent_rows(&mut rng, &file);
        let Err(refusal) = read(&file, rows.0, rows.1) else {
            continue;
        };
        let lines: Vec<&[u8]> = file.split_inclusive(|&b| b == b'\n').collect();
        let i = refusal.line as usize - 1;
        if i >= lines.len() || refusal.number == 1 || refusal.number == 6 {
            continue;
        }
        let faults = faults_of_line(&lines, i, rows);
        assert_eq!(faults.first(), Some(&refusal.number), "seed {}", seed);
        for (first, later) in pairs {
            let both = faults[0] == first && faults[1..].contains(&later);
            t.note(&format!("{} before {}", first, later), both);
        }
    }
    t.all_hit(5);
}

// ---- edges ----

#[derive(Default)]
struct Tally {
    counts: BTreeMap<String, u64>,
}

impl Tally {
    fn note(&mut self, name: &str, hit: bool) {
        *self.counts.entry(name.to_string()).or_default() += hit as u64;
    }

    /// The value, one below and one above.
    fn around(&mut self, name: &str, value: i128, edge: i128) {
        for step in [-1, 0, 1] {
            self.note(
                &format!("{} {}{:+}", name, edge, step),
                value == edge + step,
            );
        }
    }

    fn all_hit(&self, least: u64) {
        let missed: Vec<_> = self
            .counts
            .iter()
            .filter(|(_, &count)| count < least)
            .collect();
        assert!(missed.is_empty(), "too seldom: {:?}", missed);
    }
}

fn up(a: i128, b: i128) -> i128 {
    ((a + b - 1) / b).min(9_999_999)
}

/// A wall of a class by its marks.
fn wall_marks(class: u8, strengthened: u64, annex_e: u64) -> String {
    format!("class {class} strengthened {strengthened} annex E {annex_e}")
}

/// A member in one of its cases.
fn tally_member(t: &mut Tally, k: u64, share: bool, alone: &Member) {
    let (m, load) = (alone, alone.cases[0]);
    let f = judge_member(k, OLD_FORM, [share; 4], alone).unwrap()[0];
    let g = |value: u64| value as i128;
    let k = g(k);
    let column = f.class <= 3;
    t.note(&format!("class {}", f.class), true);
    t.note(&format!("class {} over {}", f.class, f.over), true);
    t.note(
        &format!("class {} strengthened {}", f.class, m.strengthened),
        true,
    );
    if !column {
        t.note(&format!("class {} zone {}", f.class, m.boundary_zone), true);
        t.note(&wall_marks(f.class, m.strengthened, m.annex_e), true);
    }
    // Axial load at the rows of the class.
    let rows: &[i128] = match f.class {
        1 | 2 => &[10_000, 60_000, 70_000, 100_000],
        3 => &[70_000, 100_000],
        4 => &[10_000, 25_000],
        _ => &[],
    };
    for &row in rows {
        t.around(&format!("class {} n", f.class), g(f.n), row);
    }
    t.note("n capped", f.n == 9_999_999);
    t.note("n_D capped", f.n_d == 9_999_999);
    t.note("n 9,999,998", f.n == 9_999_998);
    t.note("n_D 9,999,998", f.n_d == 9_999_998);
    t.note("N_K tension", load.n_k < 0);
    t.note("N_K zero", load.n_k == 0);
    t.note("N_D tension", m.n_d < 0);
    t.note("N_D zero", m.n_d == 0);
    t.note("N_D least", m.n_d == -999_999);
    t.note("N_D most", m.n_d == 9_999_999);
    // Moment and rotation.
    let by_limit = |t: &mut Tally, name: &str, value: u64, limit: u64| {
        for step in [-1, 0, 1] {
            let name = format!("class {} {} limit{:+}", f.class, name, step);
            t.note(&name, g(value) == g(limit) + step);
        }
    };
    by_limit(t, "m", f.m, f.m_limit);
    by_limit(t, "rotation", f.rotation, f.rotation_limit);
    t.note("m capped", f.m == 9_999_999);
    t.note("m 9,999,998", f.m == 9_999_998);
    t.note("factor 0", m.factor == 0);
    t.note("factor 100", m.factor == 100);
    t.note(
        "factor 0 and rotation 0",
        m.factor == 0 && load.rotation == 0,
    );
    t.note("over by m alone", f.over && f.rotation <= f.rotation_limit);
    t.note("over by rotation alone", f.over && f.m <= f.m_limit);
    t.note("m test dropped", !f.over && f.m > f.m_limit);
    // Sides.
    let (long, short) = (g(m.long_side), g(m.short_side));
    t.note("square", long == short);
    t.around("long - 5 short", long - 5 * short, 0);
    // Shear.
    let (v_e, v_r) = (g(load.v_e), g(load.v_r));
    if column {
        t.note(&format!("k {} 7 test equal", k), 1000 * v_e == 7 * k * v_r);
        t.note(
            &format!("k {} 7 test just past", k),
            7 * k * v_r == 1000 * (v_e - 1),
        );
        t.note(
            &format!("k {} 11 test equal", k),
            1000 * v_e == 11 * k * v_r,
        );
        t.note(
            &format!("k {} 11 test just past", k),
            11 * k * v_r == 1000 * (v_e - 1),
        );
        let hoops = 100 * g(m.a_sh) * g(m.f_yw) - 6 * g(m.f_cm) * g(m.s) * g(m.b_k);
        let rest = m.s <= 100 && m.hooks == 1;
        t.note("hoop condition equal", rest && hoops == 0);
        t.note(
            "hoop condition just missed",
            rest && hoops < 0 && hoops >= -100 * g(m.f_yw),
        );
        t.note(
            "hoop condition just met",
            rest && hoops > 0 && hoops <= 100 * g(m.f_yw),
        );
        t.note(
            "all but spacing 101",
            hoops >= 0 && m.hooks == 1 && m.s == 101,
        );
        t.note("spacing 100", hoops >= 0 && m.hooks == 1 && m.s == 100);
        t.note("all but hooks", hoops >= 0 && m.hooks == 0 && m.s <= 100);
        let rho = (1_000_000 * g(m.a_sh) / (g(m.s) * g(m.b_k))).min(999_999);
        if f.class == 2 {
            t.around("ρ", rho, 500);
            t.around("ρ", rho, 6_000);
            t.note("ρ capped", rho == 999_999);
        }
    } else {
        t.around("H_w - 2 long", g(m.h_w) - 2 * long, 0);
        t.note(&format!("k {} V_e = V_r", k), 100 * v_e == k * v_r);
        t.note(
            &format!("k {} V_e just below V_r", k),
            100 * v_e < k * v_r && k * v_r <= 100 * v_e + k,
        );
        t.note(
            &format!("k {} V_e just above V_r", k),
            100 * v_e > k * v_r && k * v_r >= 100 * v_e - k,
        );
        let v = up(1_000_000_000 * v_e, short * g(m.d) * g(m.f_ctm));
        for row in [90_000, 130_000] {
            t.around(&format!("class {} v", f.class), v, row);
        }
        t.note("v capped", v == 9_999_999);
        t.note("v 9,999,998", v == 9_999_998);
        t.around("drift", g(load.drift), 7_500);
    }
    let fields = MEMBER.into_iter().chain(LOAD_CASE);
    let values = m.values().into_iter().chain(load.values());
    for (i, (field, value)) in fields.zip(values).enumerate() {
        let (least, most) = range(field);
        t.note(&format!("field {} least", i + 1), value == least);
        t.note(&format!("field {} most", i + 1), value == most);
    }
}

/// Case `i`, from 0, of a storey.
fn tally_storey(t: &mut Tally, k: u64, i: usize, s: &Storey, members: &[Member]) {
    let alone: Vec<Member> = members.iter().map(|m| member_in_case(i, m)).collect();
    let found = judge_storey(k, OLD_FORM, &storey_in_case(i, s), &alone).unwrap();
    let f = found.cases[0];
    let (c, sum) = (found.c as i128, found.sum as i128);
    let (p, w) = (f.p as i128, f.w as i128);
    t.around("Σ - 10,000 c", sum - 10_000 * c, 0);
    t.around("Σ - 65,000 c", sum - 65_000 * c, 0);
    let mut walls = 0;
    let mut damage = 0;
    let mut some_over = false;
    for m in &alone {
        tally_member(t, k, f.meets_wall_share, m);
        some_over |= judge_member(k, OLD_FORM, [f.meets_wall_share; 4], m).unwrap()[0].over;
        if is_wall(m) {
            walls += m.cases[0].v as i128;
        }
        damage += [0, 20, 28, 35, 140][m.damage_kind as usize];
    }
    t.note("0.40 equal", walls > 0 && 5 * walls == 2 * w);
    t.note(
        "0.40 just missed",
        walls > 0 && 5 * walls < 2 * w && 5 * walls + 5 >= 2 * w,
    );
    t.note("0.40 just met", 5 * walls > 2 * w && 5 * walls - 5 <= 2 * w);
    let share = (65_000 * c - sum).clamp(0, 55_000 * c);
    let (left, right) = (1_100_000 * c * p, 7 * share * w);
    let step = 1_100_000 * c;
    let between = sum > 10_000 * c && sum < 65_000 * c;
    for (name, at) in [("low", sum <= 10_000 * c), ("between", between)] {
        t.note(
            &format!("{} P at the share", name),
            at && some_over && left == right,
        );
        t.note(
            &format!("{} P just below", name),
            at && left < right && left + step > right,
        );
        t.note(
            &format!("{} P just above", name),
            at && left > right && left - step < right,
        );
    }
    t.note(
        "Σ at 65,000 c, one over, P 0",
        sum == 65_000 * c && some_over && p == 0,
    );
    t.note("Σ at 65,000 c, P 1", sum == 65_000 * c && p == 1);
    t.note(
        "Σ past 65,000 c, one over, P 0",
        sum == 65_000 * c + 1 && some_over && p == 0,
    );
    t.note("Σ past 65,000 c, none over", sum > 65_000 * c && !some_over);
    t.note("damage at threshold", damage == 7 * c as u64);
    t.note(
        "damage just below",
        damage < 7 * c as u64 && damage + 8 > 7 * c as u64,
    );
    t.note("20 members, one damage 4", c == 20 && damage == 140);
    t.note("21 members, one damage 4", c == 21 && damage == 140);
    t.note("Risky by damage alone", f.risky && !some_over);
    t.note("W least", w == 1);
    t.note("W most", w == 9_999_999);
}

/// The kinds of member that must come up.
fn expect_kinds(t: &mut Tally) {
    for class in 1..=5 {
        for over in [false, true] {
            t.note(&format!("class {} over {}", class, over), false);
            t.note(
                &format!("class {} strengthened {}", class, over as u64),
                false,
            );
        }
    }
    for class in 4..=5 {
        for zone in 0..=1 {
            t.note(&format!("class {} zone {}", class, zone), false);
            for annex_e in 0..=1 {
                t.note(&wall_marks(class, zone, annex_e), false);
            }
        }
    }
}

/// The lowest case, from 1, in which each storey is Risky.
fn lowest_risky_cases(survey: &Survey) -> Vec<Option<u64>> {
    let h = &survey.header;
    let mut rest = &survey.members[..];
    let lowest = |s: &Storey| {
        let (own, later) = rest.split_at(s.count as usize);
        rest = later;
        let found = judge_storey(h.knowledge, h.form, s, own).unwrap();
        let at = found.cases.iter().position(|case| case.risky)?;
        Some(at as u64 + 1)
    };
    survey.storeys.iter().map(lowest).collect()
}

fn tally_building(t: &mut Tally, survey: &Survey) {
    let Survey {
        header,
        storeys,
        members,
    } = survey;
    t.around("tilt 1", header.tilt_1 as i128, 25_000);
    t.around("tilt 2", header.tilt_2 as i128, 25_000);
    let building = judge_building(header, storeys, members).unwrap();
    t.note("Risky by tilt alone", building.risky && building.place == 0);
    let risky = lowest_risky_cases(survey).into_iter().flatten();
    t.note("several Risky storeys", risky.count() > 1);
    t.note("only a later storey Risky", building.place > 1);
    t.note("not Risky", !building.risky);
    t.note("10 storeys", storeys.len() == 10);
    let most = members_most(header.form, 1) as u64;
    t.note("a full storey", storeys.iter().any(|s| s.count == most));
    t.note("H_T 30,000", header.height == 30_000);
    t.note(
        "n_s above the storeys",
        header.storeys > header.storey_count,
    );
}

/// Each storey of a survey with its members.
fn storeys_of(survey: &Survey) -> Vec<(&Storey, &[Member])> {
    let mut rest = &survey.members[..];
    let mut pairs = Vec::new();
    for s in &survey.storeys {
        let (own, later) = rest.split_at(s.count as usize);
        pairs.push((s, own));
        rest = later;
    }
    pairs
}

#[test]
fn edges_come_up() {
    let mut t = Tally::default();
    expect_kinds(&mut t);
    for seed in 0..6_000 {
        let survey = valid_survey_of(&mut Rng::new(seed), OLD_FORM);
        for (s, own) in storeys_of(&survey) {
            tally_storey(&mut t, survey.header.knowledge, 0, s, own);
        }
        tally_building(&mut t, &survey);
    }
    t.all_hit(5);
}

#[test]
fn edges_come_up_in_each_case() {
    let mut of_building = Tally::default();
    let mut of_case: [Tally; 4] = Default::default();
    of_case.iter_mut().for_each(expect_kinds);
    for seed in 0..6_000 {
        let survey = valid_survey_of(&mut Rng::new(seed), CASE_FORM);
        for (s, own) in storeys_of(&survey) {
            for (i, t) in of_case.iter_mut().enumerate() {
                tally_storey(t, survey.header.knowledge, i, s, own);
            }
        }
        tally_building(&mut of_building, &survey);
    }
    of_building.all_hit(5);
    of_case.iter().for_each(|t| t.all_hit(5));
}

/// The case that the verdict names, and those of the storeys after it.
fn tally_named_case(t: &mut Tally, survey: &Survey) {
    let building = judge_building(&survey.header, &survey.storeys, &survey.members).unwrap();
    let lowest = lowest_risky_cases(survey);
    let mut later = lowest[building.place as usize..].iter().flatten();
    t.note("named in a case above 1", building.case > 1);
    t.note(
        "a later storey Risky in a lower case",
        later.any(|case| *case < building.case),
    );
}

/// What only a survey in cases has.
#[test]
fn differences_between_cases_come_up() {
    let mut t = Tally::default();
    for seed in 0..3_000 {
        let survey = valid_survey_of(&mut Rng::new(seed), CASE_FORM);
        tally_named_case(&mut t, &survey);
        let k = survey.header.knowledge;
        for (s, own) in storeys_of(&survey) {
            let f = judge_storey(k, CASE_FORM, s, own).unwrap();
            let risky: Vec<bool> = f.cases.iter().map(|case| case.risky).collect();
            let met: Vec<bool> = f.cases.iter().map(|case| case.meets_wall_share).collect();
            for i in 0..4 {
                let alone = |on: &[bool]| on[i] && on.iter().filter(|&&on| on).count() == 1;
                t.note(&format!("Risky in case {} alone", i), alone(&risky));
                t.note(&format!("0.40 in case {} alone", i), alone(&met));
            }
            t.note("Risky in every case", risky.iter().all(|&on| on));
            for m in own {
                let f = judge_member(k, CASE_FORM, [false; 4], m).unwrap();
                t.note("classes differ", f.iter().any(|g| g.class != f[0].class));
                t.note("over in some", f.iter().any(|g| g.over != f[0].over));
            }
        }
    }
    t.all_hit(20);
}

#[test]
fn edge_members_are_valid() {
    for seed in 0..10_000 {
        for form in [OLD_FORM, CASE_FORM] {
            let m = edge_member(&mut Rng::new(seed), form);
            assert_eq!(check_member(form, &m), Ok(()));
        }
    }
}

#[test]
fn every_row_is_met() {
    for form in [OLD_FORM, CASE_FORM] {
        let mut seen = BTreeSet::new();
        for s in surveys_at_rows(form) {
            assert!(judge_building(&s.header, &s.storeys, &s.members).is_ok());
            for m in &s.members {
                let found = judge_member(s.header.knowledge, form, [false; 4], m).unwrap();
                for (i, (f, load)) in found.iter().zip(&m.cases).enumerate() {
                    assert_eq!((f.n as i64, f.m), (load.n_k, load.m_e));
                    let across = if f.class <= 3 { m.a_sh } else { load.v_e };
                    seen.insert((i, f.class, f.n, across, m.boundary_zone));
                }
            }
        }
        for i in 0..cases_of(form) {
            let places = |class| {
                let here = seen.iter().filter(|place| (place.0, place.1) == (i, class));
                here.count()
            };
            assert_eq!([1, 2, 3, 4, 5].map(places), [12, 72, 6, 72, 6]);
        }
    }
}
