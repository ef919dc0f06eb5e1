//! The names of the header and of the Rust package: refusals, classes, sites, uses, sizes, the places of the values, and forces to and from
//! their numbers.
use compare::programs::{self, compile_text, compiler, languages, outcome, root, said};
use std::collections::BTreeMap;
use std::fs::{self, File};
use std::path::{Path, PathBuf};
use std::process::Command;

/// A file in the folder of these tests' own files.
fn own(name: &str) -> PathBuf {
    Path::new(env!("CARGO_TARGET_TMPDIR")).join(name)
}

fn text(path: &str) -> String {
    fs::read_to_string(root().join(path)).unwrap_or_else(|e| panic!("{path}: {e}"))
}

// ---- refusals and classes ----

/// SheetTooLong as SHEET_TOO_LONG.
fn constant(name: &str) -> String {
    let word = |(i, c): (usize, char)| if i > 0 && c.is_uppercase() { format!("_{c}") } else { c.to_ascii_uppercase().to_string() };
    name.char_indices().map(word).collect()
}

/// The names that the proved code gives numbers, as constants with these numbers: each line of a file that has a name, a mark, a number and a comma.
fn numbered(file: &str, mark: &str) -> BTreeMap<String, u64> {
    let pair = |line: &str| {
        let (name, number) = line.trim().strip_suffix(',')?.split_once(mark)?;
        let name = name.trim_start_matches("Class::");
        Some((constant(name), number.parse().ok()?))
    };
    text(file).lines().filter_map(pair).collect()
}

fn refusals() -> BTreeMap<String, u64> {
    numbered("crates/records/src/refusal.rt", " = ")
}

fn classes() -> BTreeMap<String, u64> {
    numbered("crates/members/src/class.rt", " => ")
}

/// The codes of the proved code that an enum has: each line of a file with a number, the enum and a name.
fn coded(file: &str, kind: &str, before: &str) -> BTreeMap<String, u64> {
    let pair = |line: &str| {
        let (code, name) = line.trim().strip_suffix("),")?.split_once(&format!(" => Ok({kind}::"))?;
        Some((before.to_string() + &name.to_ascii_uppercase(), code.parse().ok()?))
    };
    text(file).lines().filter_map(pair).collect()
}

/// The codes of site classes and uses.
fn codes() -> BTreeMap<String, u64> {
    let classes = coded("crates/hazard/src/site.rt", "SiteClass", "");
    classes.into_iter().chain(coded("crates/hazard/src/spectrum.rt", "Usage", "USE_")).collect()
}

/// The sizes of what `determine` takes.
fn sizes() -> BTreeMap<String, u64> {
    let pair = |line: &str| {
        let (name, number) = line.strip_prefix("pub const ")?.strip_suffix(';')?.split_once(": usize = ")?;
        Some((name.replace("INPUT", "FILE"), number.replace('_', "").parse().ok()?))
    };
    text("crates/determination/src/lib.rt").lines().filter_map(pair).collect()
}

/// Constants of the Rust package by their names.
macro_rules! constants {
    ($($name:ident),*) => {
        BTreeMap::from([$((stringify!($name).to_string(), llunareth::$name as u64)),*])
    };
}

#[test]
fn sites_uses_and_sizes_of_the_package_are_those_of_the_proved_code() {
    assert_eq!(constants!(ZA, ZB, ZC, ZD, ZE, ZF, USE_DD1, USE_DD2), codes());
    assert_eq!(constants!(FILE_MOST, STOREY_ROWS, MEMBER_ROWS), sizes());
}

#[test]
fn refusals_and_classes_of_the_package_are_those_of_the_proved_code() {
    let named = constants!(
        STRUCTURE, SPELLING, OUT_OF_RANGE, SIDES_EXCHANGED, NUMBER_REPEATED, TRAILING_BYTES, NOT_LOW_RISE, TOO_LARGE, SHEET_TOO_LONG,
        FILE_TOO_LONG, CASE_MISNUMBERED, OUTSIDE_MAP
    );
    assert_eq!(named, refusals());
    assert_eq!(constants!(COLUMN_A, COLUMN_B, COLUMN_C, WALL_A, WALL_B), classes());
}

/// A text that compiles only where each name has its number.
fn claims(names: &BTreeMap<String, u64>) -> String {
    let claim = |(name, number): (&String, &u64)| format!("extern char {name}[LLUNARETH_{name} == {number} ? 1 : -1];\n");
    "#include \"llunareth.h\"\n".to_string() + &names.iter().map(claim).collect::<String>()
}

#[test]
fn the_names_of_the_header_have_the_numbers_of_the_proved_code() {
    let names = [refusals(), classes(), codes(), sizes(), BTreeMap::from([("ACCEPTED".into(), 0)])];
    let names: BTreeMap<String, u64> = names.into_iter().flatten().collect();
    assert_eq!(names.len(), 29);
    let exchanged = names.iter().map(|(name, number)| (name.clone(), if *number == 14 { 13 } else { *number })).collect();
    for (name, standard, language) in languages() {
        let output = compile_text(&mut compiler(name, standard), language, &claims(&names));
        assert!(output.status.success(), "{name} {standard}: {}", said(&output));
        assert!(!compile_text(&mut compiler(name, standard), language, &claims(&exchanged)).status.success(), "{name} {standard}");
    }
}

#[test]
fn the_page_of_the_calls_has_the_names_with_their_numbers() {
    let page = text("docs/CALLS.md");
    for (name, number) in refusals().into_iter().chain(classes()).chain(codes()) {
        assert!(page.contains(&format!("{number} `{name}`")), "{number} {name}");
    }
    for (name, number) in [("FILE_MOST", "65,536 bytes"), ("STOREY_ROWS", "10 storeys"), ("MEMBER_ROWS", "320 members")] {
        assert!(page.contains(&format!("{number} (`LLUNARETH_{name}`, `{name}`)")), "{number} {name}");
    }
}

// ---- places ----

/// The places that the header has for the values of a call which has a struct of them.
fn places_of(call: &str) -> Vec<String> {
    let header = text("bindings/c/llunareth.h");
    let (_, after) = header.split_once(&format!("Places of the values of {call}")).expect("places");
    let (_, after) = after.split_once("enum {").expect("an enum");
    let (inside, _) = after.split_once("};").expect("its end");
    let names = inside.lines().filter_map(|line| Some(line.trim().strip_prefix("LLUNARETH_")?.split_once(" = ")?.0.to_string()));
    names.filter(|name| !name.ends_with("_VALUES")).collect()
}

#[test]
fn each_place_is_that_of_the_field_of_its_struct() {
    let calls = ["read:", "judge_member", "judge_storey:", "judge_building.", "site_coefficients."];
    let expected: Vec<String> = calls.iter().flat_map(|call| places_of(&format!("llunareth_{call}"))).collect();
    for (name, standard, _) in languages() {
        let program = programs::build(&mut compiler(name, standard), "tests/compare/c/places.c", own(&format!("places{standard}")));
        let (printed, code) = outcome(Command::new(program).output().expect("places starts"));
        assert_eq!(code, Some(0));
        let lines: Vec<Vec<&str>> = printed.lines().map(|line| line.split(' ').collect()).collect();
        assert_eq!(lines.iter().map(|line| line[0]).collect::<Vec<_>>(), expected, "{name} {standard}");
        for line in lines {
            assert_eq!(line[1], line[2], "{name} {standard}: {}", line[0]);
        }
    }
}

// ---- forces ----

const ZERO: i128 = llunareth::ZERO_FORCE as i128;

/// Forces at the ends of what they are held in, about the least that has a number, and about 0.
fn forces() -> Vec<i64> {
    let about = |force: i128| (force - 2..=force + 2).filter_map(|f| i64::try_from(f).ok());
    [i64::MIN.into(), -ZERO, -9_999_999, 0, 9_999_999, ZERO, i64::MAX.into()].into_iter().flat_map(about).collect()
}

fn numbers() -> Vec<u64> {
    let about = |number: i128| (number - 2..=number + 2).filter_map(|n| u64::try_from(n).ok());
    [0, ZERO - 9_999_999, ZERO, ZERO + 9_999_999, i64::MAX.into(), i128::from(i64::MAX) + ZERO, u64::MAX.into()].into_iter().flat_map(about).collect()
}

fn number_of(force: i64) -> u64 {
    (i128::from(force) + ZERO).max(0).try_into().expect("a number")
}

fn force_of(number: u64) -> i64 {
    (i128::from(number) - ZERO).min(i64::MAX.into()).try_into().expect("a force")
}

#[test]
fn forces_to_and_from_their_numbers_in_rust() {
    for force in forces() {
        assert_eq!(llunareth::force(force), number_of(force), "{force}");
    }
    for number in numbers() {
        assert_eq!(llunareth::signed_force(number), force_of(number), "{number}");
    }
}

/// In C and C++, with a trap where an operation has no defined result.
#[test]
fn forces_to_and_from_their_numbers_by_the_header() {
    let (forces, numbers) = (forces(), numbers());
    let asked = forces.iter().map(|f| format!("force {f}\n")).chain(numbers.iter().map(|n| format!("number {n}\n")));
    let told = forces.iter().map(|&f| format!("{}\n", number_of(f))).chain(numbers.iter().map(|&n| format!("{}\n", force_of(n))));
    let (input, expected): (String, String) = (asked.collect(), told.collect());
    for (name, standard, _) in languages() {
        let mut compiler = compiler(name, standard);
        compiler.args(["-fsanitize=undefined", "-fsanitize-undefined-trap-on-error"]);
        let program = programs::build(&mut compiler, "tests/compare/c/forces.c", own(&format!("forces{standard}")));
        let path = own(&format!("forces{standard}.txt"));
        fs::write(&path, &input).expect("written");
        let (printed, code) = outcome(Command::new(program).stdin(File::open(&path).expect("a file")).output().expect("forces starts"));
        assert_eq!((printed, code), (expected.clone(), Some(0)), "{name} {standard}");
    }
}
