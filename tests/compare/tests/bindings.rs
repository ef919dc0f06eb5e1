//! The header for C and C++ and the program `verdict`, over the proved library, against the independent program.
use compare::documents::{numbered_rows, section};
use compare::programs::{self, compile_text, compiler, languages, outcome, run_at_a_terminal, said};
use compare::{
    by_storey, header_numbers, in_four_cases, judge_building, judge_storey, member_numbers, member_rows, member_values, plain_column, refusal_told, same_building,
    same_member, samples, storey_numbers, told_member, told_storey, worked_example,
};
use generator::{
    any_file, map_coefficients, members_most, one_case, period, site_class, survey_in_case, usage, valid_survey, write_survey, Rng, INPUT_MOST,
};
use independent::lines::OLD_FORM;
use independent::{Header, LoadCase, Member, Motion, Storey, Survey};
use llunareth::{raw, StoreyCaseFinding};
use std::collections::BTreeMap;
use std::fs::{self, File};
use std::path::{Path, PathBuf};
use std::process::{Command, Stdio};
use std::sync::OnceLock;

const SEED: u64 = 20_260_120;

/// A file in the folder of these tests' own files.
fn own(name: &str) -> PathBuf {
    Path::new(env!("CARGO_TARGET_TMPDIR")).join(name)
}

/// Builds a program of one file over the header and the proved library.
fn build(compiler: &mut Command, source: &str, program: &str) -> PathBuf {
    programs::build(compiler, source, own(program))
}

// ---- the header by itself ----

#[test]
fn the_header_alone() {
    for (name, standard, language) in languages() {
        let output = compile_text(&mut compiler(name, standard), language, "#include \"llunareth.h\"\n");
        assert!(output.status.success(), "{name} {standard}: {}", said(&output));
    }
}

/// With numbers of 32 bits rows and findings have other sizes: the standards that have static assertions refuse the header.
#[test]
fn the_header_asserts_the_sizes_of_its_structs() {
    let narrow = "#include <stdint.h>\n#define uint64_t uint32_t\n#include \"llunareth.h\"\n";
    for (name, standard, language) in languages() {
        let output = compile_text(&mut compiler(name, standard), language, narrow);
        let failed = said(&output).matches("static assertion failed").count();
        assert_eq!(failed, if standard == "-std=c99" { 0 } else { 10 }, "{name} {standard}: {}", said(&output));
    }
}

// ---- the program `verdict` ----

fn verdict_program() -> &'static Path {
    static PROGRAM: OnceLock<PathBuf> = OnceLock::new();
    PROGRAM.get_or_init(|| build(&mut compiler("gcc", "-std=c99"), "bindings/c/verdict.c", "verdict"))
}

fn verdict() -> Command {
    Command::new(verdict_program())
}

fn by_name(path: &Path) -> (String, Option<i32>) {
    outcome(verdict().arg(path).stdin(Stdio::null()).output().expect("verdict starts"))
}

fn by_input(path: &Path) -> (String, Option<i32>) {
    outcome(verdict().stdin(File::open(path).expect("a file")).output().expect("verdict starts"))
}

/// The line that is printed for a file, and the exit status.
fn expected(file: &[u8]) -> (String, i32) {
    if let Some(told) = refusal_told(&independent::determine(file)) {
        let line = if told.line == 0 { String::new() } else { format!(" at line {}", told.line) };
        return (format!("refused: {}{line}\n", told.number), 1);
    }
    let survey = independent::read(file, 10, 320).expect("accepted");
    let found = independent::judge_building(&survey.header, &survey.storeys, &survey.members).expect("accepted");
    let number = |place: u64| survey.storeys[place as usize - 1].number;
    let line = match (found.risky, found.place) {
        (false, _) => "not Risky\n".into(),
        (true, 0) => "Risky: tilt\n".into(),
        (true, place) if survey.header.form == 1 => format!("Risky: storey {}\n", number(place)),
        (true, place) => format!("Risky: storey {}, case {}\n", number(place), found.case),
    };
    (line, 0)
}

/// Panics unless `verdict` prints its line, with its exit status, by name and by standard input; the line.
fn same_verdict(path: &Path) -> String {
    let (line, status) = expected(&fs::read(path).expect("a file"));
    let (printed, code) = by_name(path);
    assert_eq!((&printed, code), (&line, Some(status)), "{}", path.display());
    assert_eq!(by_input(path), (printed.clone(), code), "{} by standard input", path.display());
    printed
}

#[test]
fn verdict_on_the_samples() {
    let path = |name: &String| samples::folder().join(format!("{name}.survey"));
    let printed: Vec<String> = samples::names(".survey").iter().map(|name| same_verdict(&path(name))).collect();
    for line in ["not Risky\n", "Risky: storey 1\n", "refused: 1 at line 6\n", "refused: 8\n"] {
        assert!(printed.iter().any(|p| p == line), "{line}");
    }
}

#[test]
fn verdict_on_generated_files() {
    let mut rng = Rng::new(SEED);
    let path = own("generated.survey");
    let mut seen = [0; 5];
    for _ in 0..400 {
        fs::write(&path, any_file(&mut rng)).expect("written");
        let printed = same_verdict(&path);
        let kinds = ["not Risky", "Risky: storey", "Risky: tilt", "refused: 8\n", "refused:"];
        seen[kinds.iter().position(|kind| printed.starts_with(kind)).expect("a kind of line")] += 1;
    }
    assert!(seen.iter().all(|&n| n > 0), "every kind of line comes up: {seen:?}");
}

#[test]
fn verdict_by_tilt_alone() {
    let mut survey = worked_example();
    survey.members.iter_mut().for_each(|m| (m.cases[0].m_e, m.cases[0].rotation) = (0, 0));
    for (tilt, line) in [(25_000, "not Risky\n"), (25_001, "Risky: tilt\n")] {
        let path = own("tilt.survey");
        survey.header.tilt_2 = tilt;
        fs::write(&path, write_survey(&survey)).expect("written");
        assert_eq!(same_verdict(&path), line);
    }
}

#[test]
fn verdict_names_the_storey_by_its_number() {
    let path = own("storey.survey");
    let mut survey = worked_example();
    survey.storeys[0].number = 9_999_999;
    fs::write(&path, write_survey(&survey)).expect("written");
    assert_eq!(same_verdict(&path), "Risky: storey 9999999\n");
}

#[test]
fn verdict_on_lengths_about_the_most_that_is_read() {
    let path = own("long.survey");
    let mut bytes = write_survey(&worked_example());
    for (len, line) in [(INPUT_MOST, "refused: 6 at line 5\n"), (INPUT_MOST + 1, "refused: 8\n"), (200_000, "refused: 8\n")] {
        bytes.resize(len, b' ');
        fs::write(&path, &bytes).expect("written");
        assert_eq!(same_verdict(&path), line, "{len} bytes");
    }
}

#[test]
fn verdict_on_what_cannot_be_read_or_written() {
    let nothing = (String::new(), Some(2));
    let survey = samples::folder().join("walls.survey");
    assert_eq!(by_name(&own("missing.survey")), nothing);
    assert_eq!(by_name(&samples::folder()), nothing);
    assert_eq!(by_input(&samples::folder()), nothing);
    assert_eq!(outcome(verdict().args([&survey, &survey]).output().expect("verdict starts")), nothing);
    let full = File::options().write(true).open("/dev/full").expect("a device that is full");
    assert_eq!(outcome(verdict().arg(&survey).stdout(full).output().expect("verdict starts")), nothing);
}

#[test]
fn verdict_says_at_a_terminal_what_it_awaits() {
    let awaited = "verdict: a survey is awaited on standard input; for a file: verdict FILE\n";
    let survey = fs::read(samples::folder().join("plain-block.survey")).expect("a sample");
    for (typed, due) in [(&b""[..], ("refused: 1 at line 1\n", 1)), (&survey, ("Risky: storey 1\n", 0))] {
        let output = run_at_a_terminal(verdict_program(), "", typed, Path::new(env!("CARGO_TARGET_TMPDIR")));
        assert_eq!(said(&output), awaited);
        assert_eq!(outcome(output), (due.0.into(), Some(due.1)));
    }
    let piped = verdict().stdin(Stdio::null()).output().expect("verdict starts");
    assert_eq!(said(&piped), "");
}

/// `verdict` over a library that says it has another version.
#[test]
fn verdict_with_another_version_of_the_library() {
    let other = own("other_version.c");
    fs::write(&other, format!("unsigned long __wrap_llunareth_version(void) {{ return {}; }}\n", raw::VERSION + 1)).expect("written");
    let mut compiler = compiler("gcc", "-std=c99");
    let program = build(compiler.arg(other).arg("-Wl,--wrap=llunareth_version"), "bindings/c/verdict.c", "verdict_other");
    let output = Command::new(program).arg(samples::folder().join("walls.survey")).output().expect("verdict starts");
    assert_eq!(said(&output), "verdict: the library has another form of the calls\n");
    assert_eq!(outcome(output), (String::new(), Some(2)));
}

// ---- the scales ----

/// 1,000 kN on 100,000 mm² of 10 MPa is the axial ratio 1; a moment of its capacity is m 1; 0.025 rad is the tilt allowed.
#[test]
fn the_scales_are_those_of_both_programs() {
    let (ratio, rotation) = (llunareth::RATIO_SCALE, llunareth::ROTATION_SCALE);
    let force = 1_000 * llunareth::FORCE_SCALE;
    let load = LoadCase { m_e: 100, m_p: 100, v_r: 1, ..LoadCase::default() };
    let column = Member { a_c: 100_000, n_d: force as i64, cases: one_case(load), ..plain_column() };
    let numbers = member_numbers(&column).expect("a good member");
    assert_eq!(numbers[17], llunareth::ZERO_FORCE + force);
    let found = llunareth::judge_member(100, OLD_FORM, [false; 4], &numbers.into()).expect("accepted")[0];
    assert_eq!((found.nd, found.m), (ratio, ratio));
    assert_eq!(same_member(100, OLD_FORM, [false; 4], &column), None);
    for (tilt, above) in [(rotation / 40, false), (rotation / 40 + 1, true)] {
        let mut survey = worked_example();
        survey.header.tilt_1 = tilt;
        assert_eq!(same_building(&survey), None);
        let rows = member_rows(&survey.members).expect("good members");
        assert_eq!(judge_building(&survey.header, &survey.storeys, &rows).expect("accepted").tilted, above);
    }
}

// ---- every call from C and C++ ----

/// A line of a word and numbers.
fn line(word: &str, numbers: &[u64]) -> String {
    let numbers: String = numbers.iter().map(|n| format!(" {n}")).collect();
    format!("{word}{numbers}\n")
}

/// The values of what is found of a storey in a case, in their order.
fn storey_values(f: StoreyCaseFinding) -> [u64; raw::STOREY_CASE_VALUES] {
    let [risky, met, share, one, damage] = [f.risky, f.walls_suffice, f.by_share, f.by_one_over, f.by_damage].map(u64::from);
    [f.axial_total, f.members, f.over_shear, f.shear, risky, met, share, one, damage, f.allowed_num, f.allowed_den]
}

/// The judgment of a storey and of its members. Of the allowed share only the quotient is fixed, so its two numbers are taken over from the proved
/// call.
fn storey_lines(k: u64, form: u64, s: &Storey, members: &[Member]) -> String {
    let proved = judge_storey(k, form, s, &member_rows(members).expect("good members")).expect("accepted");
    let f = independent::judge_storey(k, form, s, members).expect("accepted");
    let mut lines = line("storey", &[0, f.risky.into()]);
    let mut met = [false; 4];
    for (i, case) in proved.cases.iter().enumerate() {
        met[i] = f.cases[i].meets_wall_share;
        lines += &line("storey case", &storey_values(told_storey(&f, i, (case.allowed_num, case.allowed_den))));
    }
    for m in members {
        lines += &line("member", &[0]);
        let found = independent::judge_member(k, form, met, m).expect("accepted");
        lines.extend(found.iter().map(|f| line("member case", &member_values(told_member(f)))));
    }
    lines
}

/// A storey's row by the names of its fields, and by its words from the first on: its numbers in their order.
fn storey_row_lines(numbers: &[u64]) -> String {
    line("S", numbers) + &line("words", numbers)
}

/// The same of a member's row, each case in a line of its own.
fn member_row_lines(numbers: &[u64]) -> String {
    let (once, cases) = numbers.split_at(numbers.len() - llunareth::CASES * llunareth::CASE_NUMBERS);
    let cases: String = cases.chunks(llunareth::CASE_NUMBERS).map(|case| line("D", case)).collect();
    line("M", once) + &cases + &line("words", numbers)
}

/// What calls.c prints of an accepted survey.
fn survey_lines(survey: &Survey) -> String {
    let Survey { header, storeys, members } = survey;
    let mut lines = line("read", &[&[0, 0], &header_numbers(header)[..]].concat());
    lines.extend(storeys.iter().map(|s| storey_row_lines(&storey_numbers(s))));
    lines.extend(members.iter().map(|m| member_row_lines(&member_numbers(m).expect("a good member"))));
    lines += "faults 0 0 0 3 3 3\nlacking 0 3\n";
    lines.extend(by_storey(survey).iter().map(|(s, own)| storey_lines(header.knowledge, header.form, s, own)));
    let found = independent::judge_building(header, storeys, members).expect("accepted");
    lines += &line("building", &[0, found.tilt_above.into(), found.risky.into(), found.place, found.case]);
    lines += "short 255 255 255 255 255 255 0\n";
    let sheet = independent::report(header, storeys, members, usize::MAX).expect("accepted");
    lines += &(line("report", &[0, sheet.len() as u64]) + std::str::from_utf8(&sheet).expect("text"));
    let file = independent::write_survey(header, storeys, members, usize::MAX).expect("accepted");
    lines + &line("write", &[0, file.len() as u64]) + std::str::from_utf8(&file).expect("text") + "reread 0 1 1\n"
}

/// The constants of the header are those of the Rust package.
fn constants_lines() -> String {
    let (write_most, sheet_most) = (llunareth::WRITE_MOST as u64, llunareth::SHEET_MOST as u64);
    let scales = [llunareth::RATIO_SCALE, llunareth::ROTATION_SCALE, llunareth::FORCE_SCALE, llunareth::ZERO_FORCE, write_most, sheet_most];
    let forms = [llunareth::OLD_FORM, llunareth::FOUR_CASES, llunareth::CASES as u64];
    let numbers = [llunareth::HEADER_NUMBERS, llunareth::STOREY_NUMBERS, llunareth::CASE_NUMBERS, llunareth::MEMBER_NUMBERS].map(|n| n as u64);
    let values = [
        raw::READ_VALUES,
        raw::FINDING_VALUES,
        raw::MEMBER_VALUES,
        raw::STOREY_VALUES,
        raw::STOREY_CASE_VALUES,
        raw::BUILDING_VALUES,
        raw::REPORT_VALUES,
        raw::WRITE_VALUES,
    ];
    let values = values.map(|n| n as u64);
    let values = [&[raw::SHORT], &values[..]].concat();
    [line("version", &[raw::VERSION; 2]), line("scales", &scales), line("forms", &forms), line("numbers", &numbers), line("values", &values)].concat()
}

/// What calls.c prints for a file.
fn calls_lines(file: &[u8]) -> String {
    let read = match independent::read(file, 10, 320) {
        Ok(survey) => survey_lines(&survey),
        Err(refusal) => line("read", &[refusal.number.into(), refusal.line, 0, 0, 0, 0, 0, 0, 0]),
    };
    let printed = independent::determine(file);
    constants_lines() + "sizes 48 64 408\n" + &read + &line("determine", &[printed.len() as u64]) + std::str::from_utf8(&printed).expect("text")
}

/// The samples, and good surveys with other numbers in every field.
fn files() -> Vec<Vec<u8>> {
    let mut rng = Rng::new(SEED + 1);
    let surveys = (0..60).map(|_| write_survey(&valid_survey(&mut rng)));
    samples::all().into_iter().map(|sample| sample.survey).chain(surveys).collect()
}

#[test]
fn every_call_by_the_names_of_the_header() {
    for (name, standard, _) in languages() {
        let program = build(&mut compiler(name, standard), "tests/compare/c/calls.c", &format!("calls{standard}"));
        let path = own(&format!("calls{standard}.survey"));
        for file in files() {
            fs::write(&path, &file).expect("written");
            let (printed, code) = outcome(Command::new(&program).stdin(File::open(&path).expect("a file")).output().expect("calls starts"));
            assert_eq!((&printed, code), (&calls_lines(&file), Some(0)), "{name} {standard}");
        }
    }
}

/// A site class, a use, the map coefficients of DD-1 and of DD-2, and a period.
fn sites() -> Vec<[u64; 7]> {
    let mut rng = Rng::new(SEED + 2);
    let site = |rng: &mut Rng| {
        let (class, usage, dd1, dd2) = (site_class(rng), usage(rng), map_coefficients(rng), map_coefficients(rng));
        [class, usage, dd1.ss, dd1.s1, dd2.ss, dd2.s1, period(rng, class, dd2)]
    };
    (0..2_000).map(|_| site(&mut rng)).collect()
}

/// What spectrum.c prints for a site.
fn site_lines([class, usage, ss1, s11, ss2, s12, period]: [u64; 7]) -> String {
    let found = match independent::site(class, ss1, s11) {
        Ok(f) => [0, f.f_s, f.f_1, f.s_ds, f.s_d1],
        Err(refusal) => [refusal.number.into(), 0, 0, 0, 0],
    };
    let (dd1, dd2) = (Motion { ss: ss1, s1: s11 }, Motion { ss: ss2, s1: s12 });
    let value = match independent::spectrum(class, usage, dd1, dd2, period) {
        Ok(value) => [0, value],
        Err(refusal) => [refusal.number.into(), 0],
    };
    line("site", &found) + &line("spectrum", &value) + "short 255 255 0\n"
}

#[test]
fn sites_and_spectra_by_the_names_of_the_header() {
    let scales = [llunareth::MAP_SCALE, llunareth::FACTOR_SCALE, llunareth::SPECTRUM_SCALE, llunareth::PERIOD_SCALE];
    let values = [raw::SITE_VALUES, raw::SPECTRUM_VALUES].map(|n| n as u64);
    let constants = line("scales", &scales) + &line("codes", &[1, 2, 3, 4, 5, 6, 1, 2]) + &line("values", &values);
    let expected: String = constants + &sites().into_iter().map(site_lines).collect::<String>();
    let input: String = sites().iter().map(|site| line("", site)).collect();
    for (name, standard, _) in languages() {
        let program = build(&mut compiler(name, standard), "tests/compare/c/spectrum.c", &format!("spectrum{standard}"));
        let path = own(&format!("sites{standard}"));
        fs::write(&path, &input).expect("written");
        let (printed, code) = outcome(Command::new(&program).stdin(File::open(&path).expect("a file")).output().expect("spectrum starts"));
        assert!(printed == expected && code == Some(0), "{name} {standard}");
    }
}

// ---- the stack of each call ----

/// A survey in four cases with so many members in each storey.
fn survey_of(counts: &[u64]) -> Survey {
    let member = |number| Member { number, ..plain_column() };
    let storey = |(number, &count): (u64, &u64)| Storey { number, shears: [9_999_999, 0, 0, 0], count };
    in_four_cases(&Survey {
        header: Header::from_values(&[100, 30_000, counts.len() as i128, 0, 0, counts.len() as i128], OLD_FORM),
        storeys: (1..).zip(counts).map(storey).collect(),
        members: counts.iter().flat_map(|&count| (1..=count).map(member)).collect(),
    })
}

/// Prints the stack of each call and panics where one takes more than is stated.
fn assert_stacks(largest: &Survey, longest: &Survey) {
    let program = build(&mut compiler("cc", "-std=c99"), "tests/compare/c/stack.c", &format!("stack{}", largest.header.form));
    let name = |size: &str| own(&format!("{size}{}.survey", largest.header.form));
    fs::write(name("largest"), write_survey(largest)).expect("written");
    fs::write(name("longest"), write_survey(longest)).expect("written");
    let (printed, code) = outcome(Command::new(program).args([name("largest"), name("longest")]).output().expect("stack starts"));
    assert_eq!(code, Some(0), "a call refused its survey: {printed}");
    let lines: Vec<&str> = printed.lines().collect();
    let stated = section("CALLS.md", "## Memory");
    let most: BTreeMap<&str, usize> = numbered_rows(&stated).into_iter().flat_map(|(names, most)| names.into_iter().map(move |name| (name, most))).collect();
    assert_eq!((lines.len(), most.len()), (12, 12));
    for line in lines {
        let (name, taken) = line.split_once(' ').expect("a call and its bytes");
        let taken: usize = taken.trim().parse().expect("bytes");
        assert!(0 < taken && taken <= most[name], "{line}, at most {}", most[name]);
    }
}

#[test]
fn the_stack_of_each_call() {
    let (largest, longest) = (survey_of(&[200; 10]), survey_of(&[members_most(llunareth::FOUR_CASES, 1) as u64]));
    assert_stacks(&largest, &longest);
    let old = [200, members_most(OLD_FORM, 2) as u64 - 200];
    assert_stacks(&survey_in_case(0, &largest), &survey_in_case(0, &survey_of(&old)));
}
