//! The proved library called from Rust, and its answers as the independent program's types.
pub mod documents;
pub mod picture;
pub mod programs;
pub mod samples;
pub mod spectrum;
pub mod surveys;
pub mod table;

use generator::{edge_member_for, file_len, one_case, sheet_len, Rng};
use independent::lines::{cases_of, BEFORE_CASE, CASES, CASE_FORM, LOAD_CASE, MEMBER, OLD_FORM};
use independent::{Fraction, Header, LoadCase, Member, Refusal, Storey, Survey};
use llunareth::{raw, BuildingFinding, MemberFinding, StoreyCaseFinding, StoreyFinding};
use llunareth::{HEADER_NUMBERS, MEMBER_NUMBERS, STOREY_NUMBERS};
pub use llunareth::{Member as MemberRow, Storey as StoreyRow};
use std::path::{Path, PathBuf};

/// Both forms of a survey.
pub const FORMS: [u64; 2] = [OLD_FORM, CASE_FORM];

/// The refusals that reading knows, and those of a building's records.
pub const FILE_REFUSALS: [usize; 9] = [1, 2, 3, 4, 5, 6, 7, 8, 12];
pub const RECORD_REFUSALS: [usize; 5] = [1, 3, 4, 5, 7];

/// One more than the largest refusal.
pub const REFUSALS: usize = 13;

// ---- records and their stored numbers ----

/// What is added to a number of a member, counted from 0, to store it: N_D and the N_K of each case are counted from -20,000,000.
fn member_shift(j: usize) -> i128 {
    let is_force = j + 1 == BEFORE_CASE || (j >= MEMBER.len() && (j - MEMBER.len()) % LOAD_CASE.len() == 0);
    if is_force { llunareth::ZERO_FORCE.into() } else { 0 }
}

/// The stored numbers of a member; `None` where a force has none (below -20,000,000 or above what 64 bits hold).
pub fn member_numbers(m: &Member) -> Option<[u64; MEMBER_NUMBERS]> {
    let values = m.values().into_iter().chain(m.cases.iter().flat_map(LoadCase::values));
    let stored: Option<Vec<u64>> = values.enumerate().map(|(j, value)| u64::try_from(value + member_shift(j)).ok()).collect();
    Some(stored?.try_into().expect("so many numbers"))
}

/// The stored numbers of a header.
pub fn header_numbers(h: &Header) -> [u64; HEADER_NUMBERS] {
    let [k, height, storeys, tilt_1, tilt_2, count] = h.values().map(|v| v as u64);
    [k, height, storeys, tilt_1, tilt_2, count, h.form]
}

/// The stored numbers of a storey.
pub fn storey_numbers(s: &Storey) -> [u64; STOREY_NUMBERS] {
    let [one, two, three, four] = s.shears;
    [s.number, one, two, three, four, s.count]
}

/// The header of stored numbers.
pub fn header_of(numbers: &[u64; HEADER_NUMBERS]) -> Header {
    Header::from_values(&numbers.map(i128::from), numbers[HEADER_NUMBERS - 1])
}

/// The storey of stored numbers.
pub fn storey_of(numbers: &[u64; STOREY_NUMBERS]) -> Storey {
    let [number, one, two, three, four, count] = *numbers;
    Storey { number, shears: [one, two, three, four], count }
}

/// The member of stored numbers.
pub fn member_of(numbers: &[u64; MEMBER_NUMBERS]) -> Member {
    let values: Vec<i128> = numbers.iter().enumerate().map(|(j, &number)| i128::from(number) - member_shift(j)).collect();
    let (once, cases) = values.split_at(MEMBER.len());
    let case = |i: usize| LoadCase::from_values(&cases[LOAD_CASE.len() * i..]);
    Member::from_values(once, std::array::from_fn(case))
}

/// The members as rows; `None` where a force has no stored number.
pub fn member_rows(members: &[Member]) -> Option<Vec<MemberRow>> {
    members.iter().map(|m| member_numbers(m).map(MemberRow::from)).collect()
}

/// The storeys as rows.
pub fn storey_rows(storeys: &[Storey]) -> Vec<StoreyRow> {
    storeys.iter().map(|s| StoreyRow::from(storey_numbers(s))).collect()
}

/// A refusal of the proved library as the independent program has it.
fn refusal(r: llunareth::Refusal) -> Refusal {
    Refusal::at(r.number.try_into().expect("the number of a refusal"), r.line)
}

// ---- what a call leaves ----

/// How many numbers the `out` of a call must hold, and how many of them it puts there where it is accepted.
#[derive(Clone, Copy)]
pub struct Room {
    must: usize,
    put: usize,
}

impl From<usize> for Room {
    fn from(values: usize) -> Room {
        Room { must: values, put: values }
    }
}

impl Room {
    /// Of the call on a member of a form.
    pub fn of_member(form: u64) -> Room {
        Room { must: raw::MEMBER_VALUES, put: raw::FINDING_VALUES * cases_of(form) }
    }

    /// Of the call on a storey of a form.
    pub fn of_storey(form: u64) -> Room {
        Room { must: raw::STOREY_VALUES, put: 1 + raw::STOREY_CASE_VALUES * cases_of(form) }
    }
}

/// What stands in an `out` before a call: numbers that no call puts out.
pub fn marks(len: usize) -> Vec<u64> {
    (0..len as u64).map(|i| u64::MAX - i).collect()
}

/// Panics unless a call leaves alone what it must: of `out` all but the values where it is accepted; everything lent where it is refused; and
/// where `out` is one too short, everything lent again, and it returns that. What it returned with room in `out`.
pub fn assert_left<L: Clone + PartialEq>(room: impl Into<Room>, lent: &L, call: impl Fn(&mut L, &mut [u64]) -> u64) -> u64 {
    let Room { must, put } = room.into();
    let (mut after, mut out) = (lent.clone(), marks(must + 3));
    let returned = call(&mut after, &mut out);
    let put = if returned == 0 { put } else { 0 };
    assert_eq!(out[put..], marks(must + 3)[put..], "out after {put} values");
    assert!(returned == 0 || after == *lent, "what is lent, after refusal {returned}");
    let (mut after, mut out) = (lent.clone(), marks(must - 1));
    assert_eq!(call(&mut after, &mut out), raw::SHORT, "an out for {} of {must} values", must - 1);
    assert!(out == marks(must - 1) && after == *lent, "what is lent with an out that is too short");
    returned
}

/// The same of a call that changes nothing but `out`.
pub fn assert_out_left(room: impl Into<Room>, call: impl Fn(&mut [u64]) -> u64) -> u64 {
    assert_left(room, &(), |_, out| call(out))
}

/// So many rows before a call.
pub fn marked_rows(storeys: usize, members: usize) -> (Vec<StoreyRow>, Vec<MemberRow>) {
    let storeys = (0..storeys).map(|i| StoreyRow::from([7 + i as u64; STOREY_NUMBERS])).collect();
    let members = (0..members).map(|i| MemberRow::from([9 + i as u64; MEMBER_NUMBERS])).collect();
    (storeys, members)
}

// ---- the proved calls ----

/// What the proved reading call answers for a file and so many rows. Panics where a row changed that it must leave alone.
pub fn read(bytes: &[u8], storey_rows: usize, member_rows: usize) -> Result<Survey, Refusal> {
    let marked = marked_rows(storey_rows, member_rows);
    assert_left(raw::READ_VALUES, &marked, |(storeys, members), out| raw::read(bytes, storeys, members, out));
    let (mut storeys, mut members) = marked.clone();
    let found = llunareth::read(bytes, &mut storeys, &mut members).map(survey_of).map_err(refusal);
    let (s, m) = found.as_ref().map_or((0, 0), |survey| (survey.storeys.len(), survey.members.len()));
    assert_eq!(storeys[s..], marked.0[s..], "storey rows after those filled");
    assert_eq!(members[m..], marked.1[m..], "member rows after those filled");
    found
}

/// A survey that was read, as the independent program has it.
fn survey_of(survey: llunareth::Survey) -> Survey {
    Survey {
        header: header_of(&survey.header.into()),
        storeys: survey.storeys.iter().map(|&s| storey_of(&s.into())).collect(),
        members: survey.members.iter().map(|&m| member_of(&m.into())).collect(),
    }
}

/// The proved check of a header.
pub fn header_fault(numbers: &[u64; HEADER_NUMBERS]) -> Result<(), Refusal> {
    llunareth::header_fault(&llunareth::Header::from(*numbers)).map_err(refusal)
}

/// The proved check of a storey of a form.
pub fn storey_fault(form: u64, numbers: &[u64; STOREY_NUMBERS]) -> Result<(), Refusal> {
    llunareth::storey_fault(form, &StoreyRow::from(*numbers)).map_err(refusal)
}

/// The proved check of a member of a form.
pub fn member_fault(form: u64, numbers: &[u64; MEMBER_NUMBERS]) -> Result<(), Refusal> {
    llunareth::member_fault(form, &MemberRow::from(*numbers)).map_err(refusal)
}

/// The proved call on a member of a form, given by its stored numbers: what is found in each case.
pub fn judge_member(k: u64, form: u64, met: [bool; CASES], numbers: &[u64; MEMBER_NUMBERS]) -> Result<Vec<MemberFinding>, Refusal> {
    assert_out_left(Room::of_member(form), |out| raw::judge_member(k, form, met, numbers, out));
    let found = llunareth::judge_member(k, form, met, &MemberRow::from(*numbers)).map_err(refusal)?;
    Ok(found.to_vec())
}

/// The proved call on a storey of a form.
pub fn judge_storey(k: u64, form: u64, s: &Storey, rows: &[MemberRow]) -> Result<StoreyFinding, Refusal> {
    let storey = storey_numbers(s);
    assert_out_left(Room::of_storey(form), |out| raw::judge_storey(k, form, &storey, rows, out));
    llunareth::judge_storey(k, form, &StoreyRow::from(storey), rows).map_err(refusal)
}

/// The proved call on a building.
pub fn judge_building(h: &Header, storeys: &[Storey], rows: &[MemberRow]) -> Result<BuildingFinding, Refusal> {
    let (header, storeys) = (header_numbers(h), storey_rows(storeys));
    assert_out_left(raw::BUILDING_VALUES, |out| raw::judge_building(&header, &storeys, rows, out));
    llunareth::judge_building(&header.into(), &storeys, rows).map_err(refusal)
}

/// The proved report call: the sheet, which stands at the front of `buffer` as well.
pub fn report(h: &Header, storeys: &[Storey], rows: &[MemberRow], buffer: &mut [u8]) -> Result<Vec<u8>, Refusal> {
    let (header, storeys) = (header_numbers(h), storey_rows(storeys));
    assert_left(raw::REPORT_VALUES, &buffer.to_vec(), |sheet, out| raw::report(&header, &storeys, rows, sheet, out));
    llunareth::report(&header.into(), &storeys, rows, buffer).map(Vec::from).map_err(refusal)
}

/// The proved writing call: the file, which stands at the front of `buffer` as well.
pub fn write(h: &Header, storeys: &[Storey], rows: &[MemberRow], buffer: &mut [u8]) -> Result<Vec<u8>, Refusal> {
    let (header, storeys) = (header_numbers(h), storey_rows(storeys));
    assert_left(raw::WRITE_VALUES, &buffer.to_vec(), |file, out| raw::write(&header, &storeys, rows, file, out));
    llunareth::write(&header.into(), &storeys, rows, buffer).map(Vec::from).map_err(refusal)
}

/// The sheet of a good survey by the proved call.
pub fn sheet(survey: &Survey) -> Vec<u8> {
    let rows = member_rows(&survey.members).expect("good members");
    report(&survey.header, &survey.storeys, &rows, &mut pattern(sheet_len(survey))).expect("accepted")
}

/// The file of a good survey by the proved call.
pub fn file(survey: &Survey) -> Vec<u8> {
    let rows = member_rows(&survey.members).expect("good members");
    write(&survey.header, &survey.storeys, &rows, &mut pattern(file_len(survey))).expect("accepted")
}

// ---- both programs ----

/// What the independent program finds of a member in a case, as the proved library tells it.
pub fn told_member(f: &independent::MemberFinding) -> MemberFinding {
    MemberFinding {
        class: f.class.into(),
        m: f.m,
        m_limit: f.m_limit,
        rotation: f.rotation,
        rotation_limit: f.rotation_limit,
        over: f.over,
        nd: f.n_d,
        m_dropped: f.m_dropped,
        over_m: f.m_above && !f.m_dropped,
        over_rotation: f.rotation_above,
    }
}

/// The values of a finding, in their order.
pub fn member_values(f: MemberFinding) -> [u64; raw::FINDING_VALUES] {
    let flags = [f.m_dropped, f.over_m, f.over_rotation].map(u64::from);
    [f.class, f.m, f.m_limit, f.rotation, f.rotation_limit, f.over.into(), f.nd, flags[0], flags[1], flags[2]]
}

/// What is found of a storey, as the proved library tells it. Of the allowed share the proved library tells two numbers with that quotient: these.
pub fn told_storey(s: &independent::StoreyFinding, i: usize, share: (u64, u64)) -> StoreyCaseFinding {
    let f = s.cases[i];
    StoreyCaseFinding {
        axial_total: s.sum,
        members: s.c,
        over_shear: f.p,
        shear: f.w,
        risky: f.risky,
        walls_suffice: f.meets_wall_share,
        by_share: f.by_share,
        by_one_over: f.by_one_over,
        by_damage: f.by_damage,
        allowed_num: share.0,
        allowed_den: share.1,
    }
}

/// Judges a member by both programs and panics where they differ; the refusal, if it is one.
pub fn same_member(k: u64, form: u64, met: [bool; CASES], m: &Member) -> Option<Refusal> {
    let numbers = member_numbers(m)?;
    let expected = independent::judge_member(k, form, met, m);
    let told = expected.as_ref().map(|found| found.iter().map(told_member).collect());
    assert_eq!(judge_member(k, form, met, &numbers), told.map_err(|&refusal| refusal), "k {k}, form {form}, met {met:?}: {m:?}");
    expected.err()
}

/// Judges a storey by both programs and panics where they differ; the refusal, if it is one.
pub fn same_storey(k: u64, form: u64, s: &Storey, members: &[Member]) -> Option<Refusal> {
    let rows = member_rows(members)?;
    let about = format!("k {k}, form {form}, {s:?}, {members:?}");
    match (judge_storey(k, form, s, &rows), independent::judge_storey(k, form, s, members)) {
        (Ok(found), Ok(expected)) => {
            assert_eq!((found.risky, found.cases.len()), (expected.risky, expected.cases.len()), "{about}");
            for (i, case) in found.cases.iter().enumerate() {
                let share = (case.allowed_num, case.allowed_den);
                assert_eq!(Fraction::new(share.0.into(), share.1.into()), expected.cases[i].allowed_share, "{about}");
                assert_eq!(*case, told_storey(&expected, i, share), "{about}");
            }
            None
        }
        (found, expected) => {
            assert_eq!(found.err(), expected.clone().err(), "{about}");
            expected.err()
        }
    }
}

/// Judges a building by both programs and panics where they differ; the refusal, if it is one.
pub fn same_building(survey: &Survey) -> Option<Refusal> {
    let rows = member_rows(&survey.members)?;
    let proved = judge_building(&survey.header, &survey.storeys, &rows);
    match independent::judge_building(&survey.header, &survey.storeys, &survey.members) {
        Err(refusal) => {
            assert_eq!(proved, Err(refusal), "{survey:?}");
            Some(refusal)
        }
        Ok(expected) => {
            let found = proved.expect("accepted by the independent program");
            let said = (found.tilted, found.risky, found.place, found.case);
            assert_eq!(said, (expected.tilt_above, expected.risky, expected.place, expected.case), "{survey:?}");
            None
        }
    }
}

/// Bytes beyond a lent buffer, looked at after each call.
const BEYOND: usize = 64;

/// A buffer before a call: bytes that no sheet has.
pub fn pattern(len: usize) -> Vec<u8> {
    (0..len).map(|i| 128 + (i % 127) as u8).collect()
}

/// Panics unless a buffer that held the pattern now has `front` from its front, and the pattern after it.
fn assert_filled(buffer: &[u8], front: &[u8]) {
    let mut expected = pattern(buffer.len());
    expected[..front.len()].copy_from_slice(front);
    if buffer != expected {
        let differs = (0..buffer.len()).find(|&i| buffer[i] != expected[i]);
        panic!("byte {differs:?} differs; due from the front:\n{}", String::from_utf8_lossy(front));
    }
}

/// Writes the report by both programs into so many bytes and panics where they differ; the refusal, if it is one.
pub fn same_report(survey: &Survey, len: usize) -> Option<Refusal> {
    let rows = member_rows(&survey.members)?;
    let expected = independent::report(&survey.header, &survey.storeys, &survey.members, len);
    let mut buffer = pattern(len + BEYOND);
    let found = report(&survey.header, &survey.storeys, &rows, &mut buffer[..len]);
    assert_filled(&buffer, expected.as_deref().unwrap_or_default());
    assert!(found == expected, "{len} bytes: {survey:?}");
    expected.err()
}

/// Writes the survey as a file by both programs into so many bytes and panics where they differ; the refusal, if it is one.
pub fn same_file(survey: &Survey, len: usize) -> Option<Refusal> {
    let rows = member_rows(&survey.members)?;
    let expected = independent::write_survey(&survey.header, &survey.storeys, &survey.members, len);
    let mut buffer = pattern(len + BEYOND);
    let found = write(&survey.header, &survey.storeys, &rows, &mut buffer[..len]);
    assert_filled(&buffer, expected.as_deref().unwrap_or_default());
    assert!(found == expected, "{len} bytes: {survey:?}");
    expected.err()
}

/// The printed line `E`.
pub fn refusal_line(number: u8, line: u64) -> Vec<u8> {
    format!("E{number:>12}{line:>12}\n").into_bytes()
}

/// The refusal that a printed line `E` tells; `None` for a sheet.
pub fn refusal_told(printed: &[u8]) -> Option<Refusal> {
    let text = std::str::from_utf8(printed).expect("text").strip_prefix('E')?;
    let (number, line) = text.trim().split_once(' ').expect("two fields");
    Some(Refusal::at(number.parse().expect("a number"), line.trim().parse().expect("a number")))
}

/// What is put into so many bytes: all that is printed, else the line `E` with 9 and 0, else nothing.
fn fitting(printed: Vec<u8>, len: usize) -> Vec<u8> {
    [printed, refusal_line(9, 0)].into_iter().find(|bytes| bytes.len() <= len).unwrap_or_default()
}

/// Determines a file by both programs into so many bytes and panics where they differ; what was put there.
pub fn same_determine(input: &[u8], len: usize) -> Vec<u8> {
    let expected = fitting(independent::determine(input), len);
    let mut out = pattern(len + BEYOND);
    let printed = llunareth::determine(input, &mut out[..len]).to_vec();
    assert_filled(&out, &expected);
    assert!(printed == expected, "{len} bytes for a file of {}:\n{}", input.len(), String::from_utf8_lossy(input));
    expected
}

/// The program `determine`.
pub fn program() -> PathBuf {
    let path = Path::new(env!("CARGO_MANIFEST_DIR")).join("../../crates/determine/out/determine");
    assert!(path.is_file(), "crates/determine/out/determine is absent: `rt run` in crates/determine makes it");
    path
}

// ---- surveys ----

/// Each storey of a survey with its members.
pub fn by_storey(survey: &Survey) -> Vec<(Storey, &[Member])> {
    let mut rest = &survey.members[..];
    let mut take = |count: u64| {
        let (own, after) = rest.split_at((count as usize).min(rest.len()));
        rest = after;
        own
    };
    survey.storeys.iter().map(|s| (*s, take(s.count))).collect()
}

/// Document 01's worked example, its columns not detailed to annex E.
pub fn worked_example() -> Survey {
    let once = [1, 300, 300, 90_000, 100, 110, 2_200, 270, 3_000, 200, 250, 100, 0, 0, 0, 100, 0, 3_150, 0];
    let load = LoadCase::from_values(&[3_150, 600, 200, 60, 100, 200, 9_000, 0]);
    let first = Member::from_values(&once, one_case(load));
    Survey {
        header: Header::from_values(&[100, 9_000, 3, 0, 0, 1], OLD_FORM),
        storeys: vec![Storey { number: 1, shears: [1_000, 0, 0, 0], count: 2 }],
        members: vec![first, Member { number: 2, n_d: 3_600, cases: one_case(LoadCase { m_e: 400, v: 700, ..load }), ..first }],
    }
}

/// The sheet that document 01 prints for it, its ratios in hundred-thousandths.
pub const WORKED_SHEET: &str = "\
M           1           2      300000      259090        9000       12500           1
M           2           2      200000      259090        9000       12500           0
S           1       75000           2         200        1000           1
B           0           1
";

/// The worked example in four cases: the first as it is; the second with twice the storey shear; in the third the moments halved; in the fourth
/// rotations one past their limits.
pub fn worked_example_in_cases() -> Survey {
    let mut survey = worked_example();
    survey.header.form = CASE_FORM;
    survey.storeys[0].shears = [1_000, 2_000, 1_000, 1_000];
    for m in &mut survey.members {
        m.cases = [m.cases[0]; CASES];
        m.cases[2].m_e /= 2;
        m.cases[3].rotation = 12_501;
    }
    survey
}

/// What is printed for it.
pub const WORKED_SHEET_IN_CASES: &str = "\
M           1           1           2      300000      259090        9000       12500           1
M           1           2           2      200000      259090        9000       12500           0
S           1           1       75000           2         200        1000           1
M           2           1           2      300000      259090        9000       12500           1
M           2           2           2      200000      259090        9000       12500           0
S           2           1       75000           2         200        2000           0
M           3           1           2      150000      259090        9000       12500           0
M           3           2           2      100000      259090        9000       12500           0
S           3           1       75000           2           0        1000           0
M           4           1           2      300000      259090       12501       12500           1
M           4           2           2      200000      259090       12501       12500           1
S           4           1       75000           2         900        1000           1
B           0           1
";

/// The worked example of each form, with its sheet.
pub fn worked_examples() -> [(Survey, &'static str); 2] {
    [(worked_example(), WORKED_SHEET), (worked_example_in_cases(), WORKED_SHEET_IN_CASES)]
}

/// A column of the old form that is good, with n = N_K, n_D = N_D, rho 3,250 and neither marks nor demand.
pub fn plain_column() -> Member {
    Member {
        number: 1,
        long_side: 1_250,
        short_side: 800,
        a_c: 1_000_000,
        f_cm: 100,
        f_ctm: 100,
        f_yw: 2_200,
        d: 1_000,
        h_w: 3_000,
        s: 100,
        b_k: 400,
        a_sh: 130,
        factor: 100,
        cases: one_case(LoadCase { m_p: 100, v_r: 1, ..LoadCase::default() }),
        ..Member::default()
    }
}

/// The survey of the old form in four cases, of which each holds what its one case holds.
pub fn in_four_cases(survey: &Survey) -> Survey {
    let mut survey = survey.clone();
    survey.header.form = CASE_FORM;
    survey.storeys.iter_mut().for_each(|s| s.shears = [s.shears[0]; CASES]);
    survey.members.iter_mut().for_each(|m| m.cases = [m.cases[0]; CASES]);
    survey
}

/// A building of a form, of storeys of 200 members at the edges.
pub fn at_edges(rng: &mut Rng, form: u64, storeys: u64) -> Survey {
    let knowledge = rng.pick(&[90, 100]);
    let mut member = |i: u64| Member { number: 1 + i % 200, ..edge_member_for(rng, knowledge, form) };
    let shear = |number: u64, i: usize| if i < cases_of(form) { 5_000 * number + 1_000 * i as u64 } else { 0 };
    let storey = |number| Storey { number, shears: std::array::from_fn(|i| shear(number, i)), count: 200 };
    Survey {
        members: (0..200 * storeys).map(&mut member).collect(),
        storeys: (1..=storeys).map(storey).collect(),
        header: Header { knowledge, height: 30_000, storeys: 10, tilt_1: 0, tilt_2: 0, storey_count: storeys, form },
    }
}
