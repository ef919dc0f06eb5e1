//! The example programs `members` in C, C++ and Rust print the same table, which is that of the independent program's answers.
use compare::documents::{indented, section};
use compare::programs::{build, cargo, compile_text, compiler, is_there, outcome, root, run_on, said};
use compare::{by_storey, member_values, samples, table, told_member};
use generator::{any_file, valid_survey, write_survey, Rng};
use independent::lines::CASES;
use std::fs::{self, File};
use std::path::{Path, PathBuf};
use std::process::{Command, Output, Stdio};
use std::sync::OnceLock;

const SEED: u64 = 20_260_701;

/// A file in the folder of these tests' own files.
fn own(name: &str) -> PathBuf {
    Path::new(env!("CARGO_TARGET_TMPDIR")).join(name)
}

/// The example of the Rust package.
fn in_rust() -> PathBuf {
    let built = own("examples");
    let output = cargo("build", &root().join("bindings/rust/Cargo.toml"), &built).args(["--example", "members"]).output().expect("cargo starts");
    assert!(output.status.success(), "{}", said(&output));
    built.join("debug/examples/members")
}

/// The examples, that in C++ where its compiler is there. No number changes its type unsaid in them.
fn examples() -> &'static [PathBuf] {
    static PROGRAMS: OnceLock<Vec<PathBuf>> = OnceLock::new();
    PROGRAMS.get_or_init(|| {
        let built = |(name, standard), source, program| build(compiler(name, standard).arg("-Wconversion"), source, own(program));
        let mut programs = vec![built(("gcc", "-std=c99"), "bindings/c/members.c", "members_c"), in_rust()];
        if is_there("g++") {
            programs.push(built(("g++", "-std=c++11"), "bindings/c/members.cpp", "members_cpp"));
        }
        programs
    })
}

/// Panics unless every example prints the table of a file or its refusal; what they print.
fn same_table(path: &Path) -> String {
    let (expected, status) = table::printed(&fs::read(path).expect("a file"));
    for program in examples() {
        assert_eq!(run_on(program, path), (expected.clone(), Some(status)), "{} < {}", program.display(), path.display());
    }
    expected
}

#[test]
fn the_samples() {
    let printed: String = samples::names(".survey").iter().map(|name| same_table(&samples::folder().join(format!("{name}.survey")))).collect();
    for word in ["column A", "column B", "column C", "wall A", "wall B", " yes\n", " no\n", "refused: 4 at line 9\n", "    4  wall A"] {
        assert!(printed.contains(word), "{word}");
    }
}

#[test]
fn generated_files() {
    let mut rng = Rng::new(SEED);
    let good = (0..60).map(|_| write_survey(&valid_survey(&mut rng))).collect::<Vec<_>>();
    let path = own("members.survey");
    for file in (0..200).map(|_| any_file(&mut rng)).chain(good).chain([Vec::new()]) {
        fs::write(&path, file).expect("written");
        same_table(&path);
    }
}

/// What an example tells with this input and output.
fn run(program: &Path, input: &Path, output: Stdio) -> Output {
    Command::new(program).stdin(File::open(input).expect("a file")).stdout(output).output().expect("the example starts")
}

#[test]
fn what_cannot_be_read() {
    for program in examples() {
        let unread = run(program, &samples::folder(), Stdio::piped());
        assert_eq!(said(&unread), "members: standard input cannot be read\n", "{}", program.display());
        assert_eq!(outcome(unread), (String::new(), Some(2)), "{}", program.display());
    }
}

/// A survey whose table is longer than what a program keeps before it writes.
fn survey_of_a_long_table() -> Vec<u8> {
    let mut rng = Rng::new(SEED);
    let mut surveys = std::iter::repeat_with(|| write_survey(&valid_survey(&mut rng)));
    surveys.find(|survey| table::printed(survey).0.len() > 20_000).expect("a long table")
}

/// A full device takes no byte, of a short table, a long one and a refusal.
#[test]
fn what_cannot_be_written() {
    let path = own("unwritten.survey");
    for (file, status) in [(samples::survey("worked-example"), 0), (survey_of_a_long_table(), 0), (Vec::new(), 1)] {
        fs::write(&path, &file).expect("written");
        assert_eq!(table::printed(&file).1, status);
        for program in examples() {
            let full = File::options().write(true).open("/dev/full").expect("a device that is full");
            let lost = run(program, &path, full.into());
            assert_eq!(said(&lost), "members: standard output cannot be written\n", "{}", program.display());
            assert_eq!(lost.status.code(), Some(2), "{}", program.display());
        }
    }
}

// ---- a case that the form lacks ----

#[test]
fn the_lines_of_the_page_on_a_case_that_the_form_lacks() {
    let [lines] = &indented(&section("CALLS.md", "### Forms and cases"))[..] else { panic!("one text") };
    let text = format!("#include \"llunareth.h\"\nvoid lacking(struct llunareth_member row)\n{{\n{lines}(void)none, (void)row;\n}}\n");
    for standard in ["-std=c99", "-std=c11"] {
        let output = compile_text(&mut compiler("gcc", standard), "c", &text);
        assert!(output.status.success(), "{standard}: {}", said(&output));
    }
}

// ---- the listing of docs/CALLS.md ----

/// The lines of the listing: those of the section on the order of calls that are set in.
fn listing() -> String {
    indented(&section("CALLS.md", "## The order of calls")).concat()
}

/// What listing.c prints for a file, and its exit status.
fn listed(file: &[u8]) -> (String, i32) {
    let survey = match independent::read(file, 10, 2_000) {
        Ok(survey) => survey,
        Err(refusal) => return (format!("refused {}\n", refusal.number), 1),
    };
    let (k, form) = (survey.header.knowledge, survey.header.form);
    let (storey, own) = by_storey(&survey).pop().expect("a storey");
    let of_storey = independent::judge_storey(k, form, &storey, own).expect("accepted");
    let met: [bool; CASES] = std::array::from_fn(|c| of_storey.cases.get(c).is_some_and(|case| case.meets_wall_share));
    let of_member = independent::judge_member(k, form, met, own.last().expect("a member")).expect("accepted")[0];
    let b = independent::judge_building(&survey.header, &survey.storeys, &survey.members).expect("accepted");
    let line = |word: &str, numbers: &[u64]| numbers.iter().fold(word.to_string(), |line, n| format!("{line} {n}")) + "\n";
    let lines = [
        line("storey", &[of_storey.risky.into()]),
        line("member", &member_values(told_member(&of_member))),
        line("building", &[b.tilt_above.into(), b.risky.into(), b.place, b.case]),
    ];
    (lines.concat(), 0)
}

#[test]
fn the_listing_of_the_page_of_the_calls() {
    fs::write(own("listing.inc"), listing()).expect("written");
    let mut compiler = compiler("gcc", "-std=c99");
    let program = build(compiler.arg("-I").arg(env!("CARGO_TARGET_TMPDIR")), "tests/compare/c/listing.c", own("listing"));
    for name in samples::names(".survey") {
        let path = samples::folder().join(format!("{name}.survey"));
        let (lines, status) = listed(&fs::read(&path).expect("a file"));
        assert_eq!(run_on(&program, &path), (lines, Some(status)), "{name}");
    }
}
