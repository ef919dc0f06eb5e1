//! The program `details`, its text and its table, over the proved library, against the independent program.
use compare::documents::{indented, section};
use compare::programs::{build, compiler, outcome, run_at_a_terminal, said};
use compare::{by_storey, in_four_cases, judge_storey, member_rows, refusal_told, samples, worked_example};
use generator::{any_file, valid_survey, write_survey, Rng};
use independent::{BuildingFinding, Fraction, Header, Member, MemberFinding, Storey, StoreyCaseFinding, Survey};
use llunareth::raw;
use std::fs::{self, File};
use std::path::{Path, PathBuf};
use std::process::{Command, Stdio};
use std::sync::atomic::{AtomicUsize, Ordering};
use std::sync::OnceLock;

const SEED: u64 = 20_261_127;

/// A file in the folder of these tests' own files.
fn own(name: &str) -> PathBuf {
    Path::new(env!("CARGO_TARGET_TMPDIR")).join(name)
}

// ---- running it ----

fn program() -> &'static Path {
    static PROGRAM: OnceLock<PathBuf> = OnceLock::new();
    PROGRAM.get_or_init(|| build(&mut compiler("gcc", "-std=c99"), "bindings/c/details.c", own("details")))
}

fn details() -> Command {
    Command::new(program())
}

/// What is printed by words in front of the file's name.
fn by_name(words: &[&str], path: &Path) -> (String, Option<i32>) {
    outcome(details().args(words).arg(path).stdin(Stdio::null()).output().expect("details starts"))
}

fn by_input(words: &[&str], path: &Path) -> (String, Option<i32>) {
    outcome(details().args(words).stdin(File::open(path).expect("a file")).output().expect("details starts"))
}

// ---- what the independent program finds ----

/// A storey with its number, its finding in each case and, for each, the members' findings.
struct Found {
    storey: Storey,
    risky: bool,
    axial_total: u64,
    cases: Vec<CaseFound>,
}

struct CaseFound {
    finding: StoreyCaseFinding,
    /// The two numbers of the allowed share, which only the proved call fixes.
    share: (u64, u64),
    members: Vec<(u64, MemberFinding)>,
}

fn storey_found(header: &Header, storey: Storey, own: &[Member]) -> Found {
    let (k, form) = (header.knowledge, header.form);
    let proved = judge_storey(k, form, &storey, &member_rows(own).expect("good members")).expect("accepted");
    let found = independent::judge_storey(k, form, &storey, own).expect("accepted");
    let mut met = [false; 4];
    found.cases.iter().enumerate().for_each(|(i, case)| met[i] = case.meets_wall_share);
    let members: Vec<_> = own.iter().map(|m| (m.number, independent::judge_member(k, form, met, m).expect("accepted"))).collect();
    let case = |(i, finding): (usize, &StoreyCaseFinding)| {
        let share = (proved.cases[i].allowed_num, proved.cases[i].allowed_den);
        assert_eq!(Fraction::new(share.0.into(), share.1.into()), finding.allowed_share);
        CaseFound { finding: *finding, share, members: members.iter().map(|(number, found)| (*number, found[i].clone())).collect() }
    };
    Found { storey, risky: found.risky, axial_total: found.sum, cases: found.cases.iter().enumerate().map(case).collect() }
}

fn storeys_found(survey: &Survey) -> Vec<Found> {
    by_storey(survey).into_iter().map(|(storey, own)| storey_found(&survey.header, storey, own)).collect()
}

fn building_found(survey: &Survey) -> BuildingFinding {
    independent::judge_building(&survey.header, &survey.storeys, &survey.members).expect("accepted")
}

/// Over by m: above the limit, and the test not dropped.
fn over_m(f: &MemberFinding) -> bool {
    f.m_above && !f.m_dropped
}

// ---- the text ----

/// A line of a word and pairs of a name and a number.
fn line(word: &str, pairs: &[(&str, u64)]) -> String {
    let pairs: String = pairs.iter().map(|(name, value)| format!(" {name}={value}")).collect();
    format!("{word}{pairs}\n")
}

fn building_line(h: &Header) -> String {
    let about = [("knowledge", h.knowledge), ("height", h.height), ("storeys", h.storeys), ("tilt1", h.tilt_1), ("tilt2", h.tilt_2)];
    line("building", &[&about[..], &[("count", h.storey_count), ("form", h.form)]].concat())
}

fn case_line(found: &Found, i: usize) -> String {
    let CaseFound { finding: f, share, members } = &found.cases[i];
    let totals = [("axial_total", found.axial_total), ("members", members.len() as u64), ("over_shear", f.p), ("shear", f.w)];
    let allowed = [("allowed_num", share.0), ("allowed_den", share.1)];
    let flags = [("walls_suffice", f.meets_wall_share), ("by_share", f.by_share), ("by_one_over", f.by_one_over), ("by_damage", f.by_damage)];
    let flags: Vec<(&str, u64)> = flags.into_iter().chain([("risky", f.risky)]).map(|(name, flag)| (name, flag.into())).collect();
    line("case", &[&[("storey", found.storey.number), ("case", i as u64 + 1)], &totals[..], &allowed[..], &flags[..]].concat())
}

fn member_line(storey: u64, i: usize, number: u64, f: &MemberFinding) -> String {
    let place = [("storey", storey), ("case", i as u64 + 1), ("number", number), ("class", f.class.into())];
    let demands = [("m", f.m), ("m_limit", f.m_limit), ("rotation", f.rotation), ("rotation_limit", f.rotation_limit), ("nd", f.n_d)];
    let flags = [("m_dropped", f.m_dropped), ("over_m", over_m(f)), ("over_rotation", f.rotation_above), ("over", f.over)];
    line("member", &[&place[..], &demands[..], &flags.map(|(name, flag)| (name, flag.into()))[..]].concat())
}

fn storey_lines(place: usize, found: &Found) -> String {
    let storey = found.storey;
    let head = [("place", place as u64 + 1), ("number", storey.number), ("count", storey.count), ("risky", found.risky.into())];
    let case = |i: usize| {
        let members: String = found.cases[i].members.iter().map(|(number, f)| member_line(storey.number, i, *number, f)).collect();
        case_line(found, i) + &members
    };
    line("storey", &head) + &(0..found.cases.len()).map(case).collect::<String>()
}

const VERSION_LINE: &str = "details version=1\n";

/// The text of an accepted survey.
fn survey_text(survey: &Survey) -> String {
    let storeys: String = storeys_found(survey).iter().enumerate().map(|(place, found)| storey_lines(place, found)).collect();
    let b = building_found(survey);
    let number = if b.place == 0 { 0 } else { survey.storeys[b.place as usize - 1].number };
    let verdict = [("tilted", b.tilt_above.into()), ("risky", b.risky.into()), ("place", b.place), ("storey", number), ("case", b.case)];
    [VERSION_LINE.into(), building_line(&survey.header), storeys, line("verdict", &verdict)].concat()
}

// ---- the table ----

/// A number of a scale, the zeros at its end left out but for the first decimal.
fn figure(number: u64, decimals: usize) -> String {
    let digits = format!("{number:0width$}", width = decimals + 1);
    let (whole, rest) = digits.split_at(digits.len() - decimals);
    let rest = rest.trim_end_matches('0');
    format!("{whole}.{}", if rest.is_empty() { "0" } else { rest })
}

/// A ratio in the table, with a mark where it stopped.
fn ratio(number: u64, stopped: bool) -> String {
    figure(number, 5) + if stopped { "+" } else { "" }
}

fn kilonewtons(number: u64) -> String {
    figure(number, 1) + " kN"
}

fn quotient((number, divisor): (u64, u64), decimals: u32) -> String {
    let (number, divisor) = (u128::from(number), u128::from(divisor));
    let scale = 10_u128.pow(decimals);
    let rounded = (2 * number * scale + divisor) / (2 * divisor);
    format!("{}.{:0width$}", rounded / scale, rounded % scale, width = decimals as usize)
}

/// Two quotients, to 4 decimals or as many more as it takes until they are written differently; equal ones to 4.
fn apart(one: (u64, u64), two: (u64, u64)) -> [String; 2] {
    let equal = u128::from(one.0) * u128::from(two.1) == u128::from(two.0) * u128::from(one.1);
    let differ = (4..).find(|&d| equal || quotient(one, d) != quotient(two, d)).expect("some differ");
    [quotient(one, differ), quotient(two, differ)]
}

fn shares(case: &CaseFound) -> [String; 2] {
    apart((case.finding.p, case.finding.w), case.share)
}

fn mean(found: &Found) -> String {
    let [mean, _] = apart((found.axial_total, 100_000 * found.storey.count), (65, 100));
    mean
}

/// The words of a member's row.
fn member_words(number: u64, f: &MemberFinding) -> Vec<String> {
    let class = ["column A", "column B", "column C", "wall A", "wall B"][usize::from(f.class) - 1];
    let stopped = f.m == 9_999_999;
    let mut words = vec![number.to_string(), class.into(), ratio(f.m, stopped), ratio(f.m_limit, false)];
    if over_m(f) {
        words.push(ratio(f.m - f.m_limit, stopped));
    } else if f.m_dropped {
        words.push("dropped".into());
    }
    words.extend([figure(f.rotation, 6), figure(f.rotation_limit, 6)]);
    if f.rotation_above {
        words.push(figure(f.rotation - f.rotation_limit, 6));
    }
    words.push(ratio(f.n_d, f.n_d == 9_999_999));
    words.extend(f.over.then(|| "OVER".into()));
    words.join(" ").split(' ').map(String::from).collect()
}

fn reason_words(f: &StoreyCaseFinding) -> String {
    let reasons = [(f.by_share, "by the share"), (f.by_one_over, "by one member over"), (f.by_damage, "by damage")];
    let words: Vec<&str> = reasons.into_iter().filter_map(|(holds, words)| holds.then_some(words)).collect();
    if f.risky { format!("Risky: {}", words.join(", ")) } else { "not Risky".into() }
}

/// The lines of a storey in a case, each by its words.
fn case_words(form: u64, found: &Found, i: usize) -> Vec<Vec<String>> {
    let (case, number) = (&found.cases[i], found.storey.number);
    let split = |text: String| text.split_whitespace().map(String::from).collect();
    let title = if form == 1 { format!("Storey {number}") } else { format!("Storey {number}, case {}", i + 1) };
    let [over, allowed] = shares(case);
    let share = format!("P / W = {} / {} = {over}, allowed share {allowed}", kilonewtons(case.finding.p), kilonewtons(case.finding.w));
    let met = if case.finding.meets_wall_share { "met" } else { "not met" };
    let count = found.storey.count;
    let axial = format!("Σ = {}, c = {count}, mean n_D {}; 0.40 condition {met}", figure(found.axial_total, 5), mean(found));
    let heads = ["Member Class m limit over by rotation limit over by n_D", "rad rad rad"].map(|head| split(head.into()));
    let members = case.members.iter().map(|(number, f)| member_words(*number, f));
    let last = [share, axial, reason_words(&case.finding)].map(split);
    [split(title)].into_iter().chain(heads).chain(members).chain(last).collect()
}

fn tilt_words(h: &Header, verb: &str) -> String {
    format!("the larger of the tilts of {} and {} rad {verb} above 0.025 rad.", figure(h.tilt_1, 6), figure(h.tilt_2, 6))
}

/// The reasons of a storey in a case, as the sentence has them.
fn reasons(found: &Found, i: usize) -> String {
    let case = &found.cases[i];
    let f = case.finding;
    let [over, allowed] = shares(case);
    let (p, w) = (kilonewtons(f.p), kilonewtons(f.w));
    let reasons = [
        (f.by_share, format!("the members over carry {p} of the storey shear of {w}, {over} of it, more than the allowed share of {allowed}")),
        (f.by_one_over, format!("a member is over while the mean n_D of {} is above 0.65", mean(found))),
        (f.by_damage, "the damage of its members reaches the limit of 4.2.5.5".into()),
    ];
    let held: Vec<String> = reasons.into_iter().filter_map(|(holds, words)| holds.then_some(words)).collect();
    held.join("; ")
}

/// The verdict and its reason.
fn sentence(survey: &Survey, storeys: &[Found]) -> String {
    let (h, b) = (&survey.header, building_found(survey));
    if !b.risky {
        return format!("Not Risky: no storey is Risky, and {}", tilt_words(h, "is not"));
    }
    let storey = (b.place > 0).then(|| {
        let found = &storeys[b.place as usize - 1];
        let case = if h.form == 1 { String::new() } else { format!(" in case {}", b.case) };
        format!("storey {} is Risky{case}: {}.", found.storey.number, reasons(found, b.case as usize - 1))
    });
    let tilt = b.tilt_above.then(|| tilt_words(h, "is"));
    format!("Risky: {}", storey.into_iter().chain(tilt).collect::<Vec<_>>().join(" And "))
}

/// The lines of a table that are not empty, by their words, and the last lines as one text. No line is wider than 100 columns or ends in blanks.
fn table_parts(table: &str) -> (Vec<Vec<String>>, String) {
    for line in table.lines() {
        assert!(line.chars().count() <= 100 && line == line.trim_end(), "{line}");
    }
    let (front, last) = table.trim_end().rsplit_once("\n\n").expect("a last part");
    let words = |line: &str| line.split_whitespace().map(String::from).collect();
    (front.lines().filter(|line| !line.is_empty()).map(words).collect(), last.replace('\n', " "))
}

/// Panics unless the table is that of an accepted survey; its sentence.
fn assert_table(table: &str, survey: &Survey) -> String {
    let (h, storeys) = (&survey.header, storeys_found(survey));
    let (lines, last) = table_parts(table);
    let (height, cases) = (figure(h.height, 3), if h.form == 1 { "one" } else { "four" });
    let tilts = format!("tilts {} and {} rad", figure(h.tilt_1, 6), figure(h.tilt_2, 6));
    let head = format!("k = {}.{:02}, H_T = {height} m, n_s = {}, {tilts}, {cases} load case", h.knowledge / 100, h.knowledge % 100, h.storeys);
    assert_eq!(lines[0].join(" "), head + if h.form == 1 { "" } else { "s" });
    assert!(lines[1].join(" ").starts_with("OVER: past a limit;"));
    let due: Vec<_> = storeys.iter().flat_map(|found| (0..found.cases.len()).flat_map(|i| case_words(h.form, found, i))).collect();
    assert_eq!(lines[2..], due);
    assert_eq!(last, sentence(survey, &storeys));
    last
}

// ---- both held against the file ----

/// Panics unless text and table are those of the file, by name and by standard input; the sentence or the refusal.
fn same_details(path: &Path) -> String {
    let file = fs::read(path).expect("a file");
    let (text, status) = by_name(&["text"], path);
    let (table, table_status) = by_name(&["table"], path);
    assert_eq!(by_name(&[], path), (table.clone(), table_status));
    assert_eq!(by_input(&["text"], path), (text.clone(), status), "{} by standard input", path.display());
    if let Some(told) = refusal_told(&independent::determine(&file)) {
        let (number, at) = (told.number, if told.line == 0 { String::new() } else { format!(" at line {}", told.line) });
        assert_eq!((text, status), (format!("{VERSION_LINE}{}", line("refused", &[("refusal", number.into()), ("line", told.line)])), Some(1)));
        assert_eq!((&table, table_status), (&format!("refused: {number}{at}\n"), Some(1)));
        return table;
    }
    let survey = independent::read(&file, 10, 320).expect("accepted");
    assert_eq!((text, status, table_status), (survey_text(&survey), Some(0), Some(0)), "{}", path.display());
    assert_table(&table, &survey)
}

#[test]
fn details_of_the_samples() {
    for name in samples::names(".survey") {
        same_details(&samples::folder().join(format!("{name}.survey")));
    }
}

/// What stands in some table of the generated files.
const COMES_UP: [&str; 14] = [
    "column A",
    "column B",
    "column C",
    "wall A",
    "wall B",
    "OVER",
    "dropped",
    "99.99999+",
    "condition met",
    ", case 4",
    "Risky: by the share\n",
    "Risky: by one member over\n",
    "Risky: by damage\n",
    "by the share, by one member over, by damage\n",
];

#[test]
fn details_of_generated_files() {
    let mut rng = Rng::new(SEED);
    let path = own("details_generated.survey");
    let (mut seen, mut tables) = ([0; 4], String::new());
    for i in 0..400 {
        let file = if i % 4 == 0 { write_survey(&valid_survey(&mut rng)) } else { any_file(&mut rng) };
        fs::write(&path, file).expect("written");
        let last = same_details(&path);
        let kinds = ["Not Risky: ", "Risky: storey", "Risky: the larger", "refused: "];
        seen[kinds.iter().position(|kind| last.starts_with(kind)).expect("a kind of line")] += 1;
        tables += &by_name(&["table"], &path).0;
    }
    assert!(seen.iter().all(|&n| n > 0), "every kind comes up: {seen:?}");
    for words in COMES_UP {
        assert!(tables.contains(words), "{words} comes up");
    }
}

/// The sheet's lines stand in the text: the same numbers in the same order.
#[test]
fn the_text_has_the_sheet() {
    for sample in samples::all().into_iter().filter(|sample| refusal_told(&sample.sheet).is_none()) {
        let (text, _) = by_name(&["text"], &samples::folder().join(format!("{}.survey", sample.name)));
        let form = independent::read(&sample.survey, 10, 320).expect("accepted").header.form;
        assert_eq!(sheet_of(&text, form).into_bytes(), sample.sheet, "{}", sample.name);
    }
}

/// The number of a name in a line of the text.
fn number(line: &str, name: &str) -> u64 {
    let pair = line.split(' ').find_map(|word| word.strip_prefix(name)?.strip_prefix('='));
    pair.and_then(|digits| digits.parse().ok()).unwrap_or_else(|| panic!("{name} in {line}"))
}

fn sheet_line(tag: char, numbers: &[u64]) -> String {
    tag.to_string() + &numbers.iter().map(|n| format!("{n:>12}")).collect::<String>() + "\n"
}

/// The sheet, from the text's lines alone. In the text a storey's line of a case comes before its members.
fn sheet_of(text: &str, form: u64) -> String {
    let (mut sheet, mut storey_line) = (String::new(), String::new());
    for line in text.lines() {
        let fields = |names: &[&str]| -> Vec<u64> { names.iter().map(|name| number(line, name)).collect() };
        let of_case = |fields: Vec<u64>| if form == 1 { fields[1..].to_vec() } else { fields };
        match line.split(' ').next().expect("a word") {
            "case" => {
                sheet += &storey_line;
                storey_line = sheet_line('S', &of_case(fields(&["case", "storey", "axial_total", "members", "over_shear", "shear", "risky"])));
            }
            "member" => sheet += &sheet_line('M', &of_case(fields(&["case", "number", "class", "m", "m_limit", "rotation", "rotation_limit", "over"]))),
            "verdict" => sheet += &(storey_line.clone() + &sheet_line('B', &fields(&["tilted", "risky"]))),
            _ => {}
        }
    }
    sheet
}

// ---- the sentence of each reason ----

/// Each survey goes to a file of its own: tests run side by side.
fn sentence_of(survey: &Survey) -> String {
    static FILES: AtomicUsize = AtomicUsize::new(0);
    let path = own(&format!("details_{}.survey", FILES.fetch_add(1, Ordering::Relaxed)));
    fs::write(&path, write_survey(survey)).expect("written");
    same_details(&path)
}

/// The worked example without demands.
fn without_demands() -> Survey {
    let mut survey = worked_example();
    survey.members.iter_mut().for_each(|m| (m.cases[0].m_e, m.cases[0].rotation) = (0, 0));
    survey
}

const SHARE: &str = "the members over carry 20.0 kN of the storey shear of 100.0 kN, 0.2000 of it, more than the allowed share of 0.1750";
const TILT: &str = "the larger of the tilts of 0.0 and 0.025001 rad is above 0.025 rad.";
const DAMAGE: &str = "the damage of its members reaches the limit of 4.2.5.5";
const ONE_OVER: &str = "a member is over while the mean n_D of 0.7000 is above 0.65";

/// A change that makes each reason hold: N_D for a mean of 0.7, the worst damage, a tilt.
fn loaded(survey: &mut Survey) {
    survey.members.iter_mut().for_each(|m| m.n_d = 6_300);
}

fn damaged(survey: &mut Survey) {
    survey.members[0].damage_kind = 4;
}

fn tilted(survey: &mut Survey) {
    survey.header.tilt_2 = 25_001;
}

fn changed(mut survey: Survey, changes: &[fn(&mut Survey)]) -> Survey {
    changes.iter().for_each(|change| change(&mut survey));
    survey
}

#[test]
fn a_sentence_for_the_share_and_its_case() {
    assert_eq!(sentence_of(&worked_example()), format!("Risky: storey 1 is Risky: {SHARE}."));
    let mut cases = in_four_cases(&worked_example());
    cases.storeys[0].shears[..2].fill(9_999_999);
    assert_eq!(sentence_of(&cases), format!("Risky: storey 1 is Risky in case 3: {SHARE}."));
}

#[test]
fn a_sentence_for_one_member_over_alone() {
    let no_shear = |survey: &mut Survey| survey.members.iter_mut().for_each(|m| m.cases[0].v = 0);
    assert_eq!(sentence_of(&changed(worked_example(), &[loaded, no_shear])), format!("Risky: storey 1 is Risky: {ONE_OVER}."));
}

#[test]
fn a_sentence_for_damage_and_for_tilt_alone() {
    assert_eq!(sentence_of(&changed(without_demands(), &[damaged])), format!("Risky: storey 1 is Risky: {DAMAGE}."));
    assert_eq!(sentence_of(&changed(without_demands(), &[tilted])), format!("Risky: {TILT}"));
}

#[test]
fn a_sentence_for_several_reasons() {
    let all = changed(worked_example(), &[loaded, damaged, tilted]);
    let share = SHARE.replace("0.1750", "0.0000");
    assert_eq!(sentence_of(&all), format!("Risky: storey 1 is Risky: {share}; {ONE_OVER}; {DAMAGE}. And {TILT}"));
}

#[test]
fn a_sentence_for_none() {
    let none = "Not Risky: no storey is Risky, and the larger of the tilts of 0.0 and 0.025 rad is not above 0.025 rad.";
    assert_eq!(sentence_of(&changed(without_demands(), &[|survey| survey.header.tilt_2 = 25_000])), none);
}

/// A quotient just above another is not shown as equal to it.
#[test]
fn as_many_decimals_as_it_takes() {
    let share = |over: u64, w: u64| {
        let mut survey = worked_example();
        survey.members.iter_mut().for_each(|m| m.n_d = 0);
        survey.members[0].cases[0].v = over;
        survey.storeys[0].shears[0] = w;
        sentence_of(&survey)
    };
    assert!(share(35_001, 100_000).ends_with("0.35001 of it, more than the allowed share of 0.35000."));
    assert!(share(3_500_000, 9_999_999).ends_with("0.35000004 of it, more than the allowed share of 0.35000000."));
    assert!(share(35_000, 100_000).starts_with("Not Risky"));
}

/// The same of the mean n_D beside 0.65; on an area of 9,000,000 mm² one step of N_D is about one of n_D.
#[test]
fn as_many_decimals_as_it_takes_of_the_mean() {
    let mean = |n_d| {
        let mut survey = worked_example();
        (survey.members[0].cases[0].v, survey.members[0].cases[0].m_e) = (0, 9_999);
        survey.members.iter_mut().for_each(|m| (m.a_c, m.n_d) = (9_000_000, n_d));
        sentence_of(&survey)
    };
    assert!(mean(585_001).ends_with("a member is over while the mean n_D of 0.65001 is above 0.65."), "{}", mean(585_001));
    assert!(mean(585_000).starts_with("Not Risky"), "{}", mean(585_000));
}

// ---- the documents ----

/// The lines that are set in, commands left out.
fn listing(section: &str) -> Vec<String> {
    let lines = indented(section).into_iter().flat_map(|text| text.lines().map(String::from).collect::<Vec<_>>());
    lines.filter(|line| !line.starts_with("./") && !line.is_empty()).collect()
}

fn of_sample(word: &str, name: &str) -> String {
    by_name(&[word], &samples::folder().join(format!("{name}.survey"))).0
}

#[test]
fn the_listings_of_the_documents() {
    let text = of_sample("text", "plain-block") + &of_sample("text", "refusal-2-decimal-comma");
    let table = of_sample("table", "plain-block");
    let (details, page) = (section("FORMAT.md", "## The details"), section("PAGE.md", "## The table in the terminal"));
    assert_eq!((listing(&details).len(), listing(&page).len()), (7, 14));
    listing(&details).into_iter().for_each(|line| assert!(text.lines().any(|printed| printed == line), "{line}"));
    listing(&page).into_iter().for_each(|line| assert!(table.lines().any(|printed| printed == line), "{line}"));
}

/// Of each line of the text, its word and the names of its numbers, as the table of FORMAT has them.
#[test]
fn the_names_of_the_document() {
    let details = section("FORMAT.md", "## The details");
    let ticked = |cell: &str| cell.split('`').skip(1).step_by(2).map(String::from).collect::<Vec<_>>();
    let mut listed: Vec<Vec<String>> = vec![];
    for row in details.lines().filter(|line| line.starts_with("| ") && !line.starts_with("| Line")) {
        let cells: Vec<&str> = row.split('|').collect();
        listed.extend((!ticked(cells[1]).is_empty()).then(|| ticked(cells[1])));
        listed.last_mut().expect("a line").extend(ticked(cells[2]));
    }
    let text = of_sample("text", "cases-risky-in-case-3");
    let mut printed: Vec<Vec<String>> = vec![];
    for line in text.lines() {
        let names: Vec<String> = line.split(' ').map(|word| word.split('=').next().expect("a name").into()).collect();
        printed.extend((!printed.contains(&names)).then_some(names));
    }
    assert_eq!(listed, printed);
}

// ---- what cannot be read or written, and wrong usage ----

#[test]
fn what_cannot_be_read_or_written() {
    let nothing = (String::new(), Some(2));
    let survey = samples::folder().join("walls.survey");
    for words in [&["text"][..], &["table"], &[]] {
        assert_eq!(by_name(words, &own("missing.survey")), nothing);
        assert_eq!(by_name(words, &samples::folder()), nothing);
        assert_eq!(by_input(words, &samples::folder()), nothing);
        let full = File::options().write(true).open("/dev/full").expect("a device that is full");
        assert_eq!(outcome(details().args(words).arg(&survey).stdout(full).output().expect("details starts")), nothing);
    }
}

/// At a terminal the program says on standard error what it awaits; a file's name or another input is read without a word.
#[test]
fn a_person_at_a_terminal_is_told_what_is_awaited() {
    let awaited = "details: a survey is awaited on standard input; for a file: details FILE\n";
    let (path, folder) = (samples::folder().join("plain-block.survey"), Path::new(env!("CARGO_TARGET_TMPDIR")));
    let survey = fs::read(&path).expect("a sample");
    for words in ["", "text", "table"] {
        let output = run_at_a_terminal(program(), words, &survey, folder);
        assert_eq!(said(&output), awaited);
        assert_eq!(outcome(output), by_name(words.split_whitespace().collect::<Vec<_>>().as_slice(), &path));
    }
    let named = run_at_a_terminal(program(), &format!("'{}'", path.display()), b"", folder);
    assert_eq!((said(&named), outcome(named)), (String::new(), by_name(&[], &path)));
    let piped = details().stdin(File::open(&path).expect("a sample")).output().expect("details starts");
    assert_eq!(said(&piped), "");
}

#[test]
fn wrong_usage() {
    let survey = samples::folder().join("walls.survey");
    let survey = survey.to_str().expect("text");
    for arguments in [&["text", survey, survey][..], &["table", survey, "table"], &[survey, survey], &["Text", survey]] {
        let output = details().args(arguments).stdin(Stdio::null()).output().expect("details starts");
        assert_eq!(said(&output), "usage: details [text | table] [FILE]\n");
        assert_eq!(outcome(output), (String::new(), Some(2)));
    }
}

#[test]
fn with_another_version_of_the_library() {
    let other = own("details_other_version.c");
    fs::write(&other, format!("unsigned long __wrap_llunareth_version(void) {{ return {}; }}\n", raw::VERSION + 1)).expect("written");
    let mut compiler = compiler("gcc", "-std=c99");
    let program = build(compiler.arg(other).arg("-Wl,--wrap=llunareth_version"), "bindings/c/details.c", own("details_other"));
    let output = Command::new(program).arg(samples::folder().join("walls.survey")).output().expect("details starts");
    assert_eq!(said(&output), "details: the library has another form of the calls\n");
    assert_eq!(outcome(output), (String::new(), Some(2)));
}
