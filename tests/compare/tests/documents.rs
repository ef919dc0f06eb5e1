//! What docs/FORMAT.md and docs/REFUSALS.md give an office to read beside its files and to run: the lines of samples, the loop over several
//! surveys, the commands that mend a file.
use compare::documents::{indented, quoted, section};
use compare::{program, refusal_line, same_determine, samples};
use llunareth::SHEET_MOST;
use std::fs;
use std::os::unix::fs::symlink;
use std::path::{Path, PathBuf};
use std::process::{Command, Output};
use std::sync::atomic::{AtomicU32, Ordering};

fn text(bytes: &[u8]) -> String {
    String::from_utf8_lossy(bytes).into()
}

/// The sheet of a sample.
fn sheet(name: &str) -> Vec<u8> {
    samples::all().into_iter().find(|sample| sample.name == name).unwrap_or_else(|| panic!("no sample {name}")).sheet
}

// ---- lines of samples ----

/// The lines of indented texts that are lines of a survey or of a sheet, by their tags.
fn lines_with(section: &str, tags: &str) -> Vec<String> {
    let is_line = |line: &&str| {
        let (tag, rest) = line.split_at(1);
        tags.contains(tag) && rest.starts_with(' ') && rest.bytes().all(|byte| b" -0123456789".contains(&byte))
    };
    indented(section).iter().flat_map(|text| text.lines().filter(is_line).map(String::from).collect::<Vec<_>>()).collect()
}

/// Panics unless each line stands in one of the files.
fn each_in_some(lines: &[String], files: &[Vec<u8>]) {
    let texts: Vec<&str> = files.iter().map(|file| std::str::from_utf8(file).expect("text")).collect();
    for line in lines {
        assert!(texts.iter().any(|text| text.lines().any(|own| own == line)), "no sample has the line\n{line}");
    }
}

#[test]
fn the_lines_of_surveys_stand_in_samples() {
    let lines = lines_with(&section("FORMAT.md", "## The survey"), "BSMD");
    assert_eq!(lines.iter().map(|line| &line[..1]).collect::<String>(), "BSSMMD");
    each_in_some(&lines, &samples::all().into_iter().filter(|s| !s.name.starts_with("refusal")).map(|s| s.survey).collect::<Vec<_>>());
}

#[test]
fn the_lines_of_sheets_stand_in_samples() {
    let lines = lines_with(&section("FORMAT.md", "## The sheet"), "BSMDE");
    assert_eq!(lines.iter().map(|line| &line[..1]).collect::<String>(), "MSMSBEMMSMSBE");
    each_in_some(&lines, &samples::all().into_iter().map(|s| s.sheet).collect::<Vec<_>>());
}

/// Before each worked text a sample is named: the lines are of its sheet.
#[test]
fn the_worked_lines_stand_in_the_samples_named() {
    let section = section("FORMAT.md", "### Reading the sheet");
    let introductions: Vec<&str> = section.lines().filter(|line| line.ends_with("`:")).collect();
    let texts = indented(&section);
    assert_eq!((introductions.len(), texts.len()), (6, 6));
    for (introduction, lines) in introductions.iter().zip(texts) {
        let name = quoted(introduction)[0];
        let sheet = text(&sheet(name));
        assert!(lines.lines().all(|line| sheet.lines().any(|own| own == line)), "{name} has not\n{lines}");
    }
}

// ---- a folder in which commands run ----

struct Folder(PathBuf);

impl Folder {
    fn new(name: &str) -> Folder {
        static MADE: AtomicU32 = AtomicU32::new(0);
        let number = MADE.fetch_add(1, Ordering::Relaxed);
        let path = std::env::temp_dir().join(format!("llunareth-{name}-{}-{number}", std::process::id()));
        fs::create_dir(&path).expect("a new folder");
        Folder(path)
    }

    fn put(&self, name: &str, bytes: &[u8]) {
        fs::write(self.0.join(name), bytes).expect("written");
    }

    fn get(&self, name: &str) -> Vec<u8> {
        fs::read(self.0.join(name)).unwrap_or_else(|e| panic!("{name}: {e}"))
    }

    /// Runs words in bash, with the programs of a folder found first.
    fn bash(&self, words: &str, programs: &Path) -> Output {
        let path = format!("{}:{}", programs.display(), std::env::var("PATH").expect("PATH"));
        Command::new("bash").args(["-c", words]).current_dir(&self.0).env("PATH", path).output().expect("bash starts")
    }
}

impl Drop for Folder {
    fn drop(&mut self) {
        let _ = fs::remove_dir_all(&self.0);
    }
}

// ---- several buildings ----

/// The loop of the document, and what the document says that it prints.
fn the_loop() -> [String; 2] {
    indented(&section("FORMAT.md", "## Several buildings")).try_into().expect("the loop and what it prints")
}

fn programs() -> PathBuf {
    program().parent().expect("a folder").canonicalize().expect("the program's folder")
}

/// The samples that the document names, no file longer than a kilobyte: the sheet of the last is.
#[test]
fn the_loop_prints_what_the_document_says() {
    let [words, said] = the_loop();
    let folder = Folder::new("loop");
    let names: Vec<&str> = said.lines().map(|line| line.split_once(".survey: ").expect("a name").0).collect();
    for name in &names {
        folder.put(&format!("{name}.survey"), &samples::survey(name));
    }
    let output = folder.bash(&format!("trap '' XFSZ; ulimit -f 1\n{words}"), &programs());
    assert_eq!(text(&output.stdout), said);
    assert_eq!(text(&output.stderr), "determine: standard output cannot be written\n");
    let (last, whole) = names.split_last().expect("four samples");
    for sample in samples::all().iter().filter(|sample| names.contains(&&sample.name[..])) {
        let kept = folder.get(&format!("{}.sheet", sample.name));
        assert_eq!(kept == sample.sheet, whole.contains(&&sample.name[..]), "{}", sample.name);
        assert!(sample.sheet.starts_with(&kept));
    }
    assert_eq!((*last, whole.len()), ("walls", 3));
}

/// Every sample, with room for its sheet: the verdict or the refusal of its last line.
#[test]
fn the_loop_over_all_samples() {
    let folder = Folder::new("samples");
    let due = |name: &str, sheet: &[u8]| {
        let sheet = text(sheet);
        let fields: Vec<&str> = sheet.lines().last().expect("a line").split_whitespace().collect();
        match fields[..] {
            ["B", _, "1"] => format!("{name}.survey: Risky\n"),
            ["B", "0", "0"] => format!("{name}.survey: not Risky\n"),
            ["E", number, line] => format!("{name}.survey: refused by {number}, line {line}\n"),
            _ => panic!("{name}: {fields:?}"),
        }
    };
    let mut expected = String::new();
    for sample in samples::all() {
        folder.put(&format!("{}.survey", sample.name), &sample.survey);
        expected += &due(&sample.name, &sample.sheet);
    }
    let output = folder.bash(&format!("LC_ALL=C\n{}", the_loop()[0]), &programs());
    assert_eq!((text(&output.stdout), text(&output.stderr)), (expected, String::new()));
    samples::all().iter().for_each(|sample| assert_eq!(folder.get(&format!("{}.sheet", sample.name)), sample.sheet));
}

/// A stand-in for the program prints what it is given: a sheet cut off after each of its bytes is told as such, the whole one is not.
#[test]
fn sheets_cut_off_after_each_byte() {
    let (folder, stand_in) = (Folder::new("cut-off"), Folder::new("stand-in"));
    symlink("/bin/cat", stand_in.0.join("determine")).expect("a link");
    let mut expected = String::new();
    for (name, verdict) in [("worked-example", "Risky"), ("refusal-8-too-long", "refused by 8, line 0"), ("risky-by-tilt", "Risky")] {
        let sheet = sheet(name);
        for length in 0..=sheet.len() {
            let file = format!("{name}-{length:03}.survey");
            folder.put(&file, &sheet[..length]);
            let told = if length == sheet.len() { verdict } else { "no whole sheet, no verdict" };
            expected += &format!("{file}: {told}\n");
        }
    }
    let output = folder.bash(&format!("LC_ALL=C\n{}", the_loop()[0]), &stand_in.0);
    let sorted = |text: &str| text.lines().map(String::from).collect::<std::collections::BTreeSet<_>>();
    assert_eq!(sorted(&text(&output.stdout)), sorted(&expected));
}

/// An earlier sheet is not taken for that of a survey that cannot be read: it is emptied.
#[test]
fn an_earlier_sheet_is_emptied() {
    let folder = earlier_sheets();
    fs::create_dir(folder.0.join("a folder.survey")).expect("a folder");
    symlink("nowhere", folder.0.join("absent.survey")).expect("a link");
    let output = folder.bash(&the_loop()[0], &programs());
    assert_eq!(text(&output.stdout), NO_VERDICTS);
    assert!(text(&output.stderr).contains("determine: standard input cannot be read\n"), "{}", text(&output.stderr));
    assert_eq!([folder.get("a folder.sheet"), folder.get("absent.sheet")], [b"", b""]);
}

/// Nor where the program is absent, or where bash is told to write over no file, so that the earlier sheet stays.
#[test]
fn an_earlier_sheet_is_not_taken() {
    for before in ["PATH=.", "set -C"] {
        let folder = earlier_sheets();
        ["a folder.survey", "absent.survey"].iter().for_each(|name| folder.put(name, &samples::survey("plain-block")));
        let output = folder.bash(&format!("{before}\n{}", the_loop()[0]), &programs());
        assert_eq!(text(&output.stdout), NO_VERDICTS, "{before}");
    }
}

const NO_VERDICTS: &str = "a folder.survey: no whole sheet, no verdict\nabsent.survey: no whole sheet, no verdict\n";

/// A folder with a sheet for each of two surveys.
fn earlier_sheets() -> Folder {
    let folder = Folder::new("earlier");
    let sheet = sheet("worked-example");
    ["a folder.sheet", "absent.sheet"].iter().for_each(|name| folder.put(name, &sheet));
    folder
}

// ---- commands that mend a file ----

/// What a command of docs/REFUSALS.md makes of a file, in a plain locale and in one of UTF-8.
fn mended(command: &str, spoiled: &[u8]) -> Vec<u8> {
    let made = ["C", "C.UTF-8"].map(|locale| {
        let folder = Folder::new("mended");
        folder.put("FILE", spoiled);
        let output = folder.bash(&format!("export LC_ALL={locale}; {command}"), &folder.0);
        assert_eq!((output.status.success(), text(&output.stderr)), (true, String::new()), "{command}");
        folder.get(if command.ends_with("> NEW") { "NEW" } else { "FILE" })
    });
    assert_eq!(made[0], made[1], "{command}");
    made[0].clone()
}

/// The commands for line ends, a byte-order mark and UTF-16.
fn commands() -> [String; 3] {
    let section = section("REFUSALS.md", "## `E 1 1` on a file that looks right");
    let rows = section.lines().filter(|line| line.starts_with('|'));
    let commands: Vec<String> = rows.flat_map(quoted).map(String::from).collect();
    commands.try_into().expect("three commands")
}

fn with_cr(survey: &[u8]) -> Vec<u8> {
    text(survey).replace('\n', "\r\n").into_bytes()
}

fn with_mark(survey: &[u8]) -> Vec<u8> {
    [b"\xEF\xBB\xBF", survey].concat()
}

/// With its byte-order mark, the lower byte first or second.
fn utf_16(survey: &[u8], number: fn(u16) -> [u8; 2]) -> Vec<u8> {
    let text = text(survey);
    std::iter::once(0xFEFF).chain(text.encode_utf16()).flat_map(number).collect()
}

fn assert_mended(commands: &[&str], spoiled: &[u8], name: &str) {
    assert_eq!(text(&same_determine(spoiled, SHEET_MOST)), text(&refusal_line(1, 1)), "{name} spoiled");
    let file = commands.iter().fold(spoiled.to_vec(), |file, command| mended(command, &file));
    assert!(file == samples::survey(name), "{name} after {commands:?}:\n{}", text(&file));
}

#[test]
fn files_that_look_right_are_mended() {
    let [line_ends, mark, utf] = &commands();
    for name in ["plain-block", "cases-tension"] {
        let survey = samples::survey(name);
        assert_mended(&[line_ends], &with_cr(&survey), name);
        assert_mended(&[mark], &with_mark(&survey), name);
        assert_mended(&[mark, line_ends], &with_mark(&with_cr(&survey)), name);
        for number in [u16::to_le_bytes, u16::to_be_bytes] {
            assert_mended(&[utf], &utf_16(&survey, number), name);
            assert_mended(&[utf, line_ends], &utf_16(&with_cr(&survey), number), name);
        }
    }
}

/// The commands leave a good file as it is.
#[test]
fn a_good_file_stays_as_it_is() {
    let [line_ends, mark, _] = &commands();
    let survey = samples::survey("tension");
    assert!([line_ends, mark].iter().all(|command| mended(command, &survey) == survey));
}

/// The survey as it was before the last field of its `M` lines.
fn without_last_field(survey: &[u8]) -> Vec<u8> {
    let before = |line: &str| if line.starts_with('M') { format!("{}\n", &line[..line.len() - 8]) } else { format!("{line}\n") };
    text(survey).lines().map(before).collect::<String>().into_bytes()
}

#[test]
fn the_last_field_is_added() {
    let section = section("REFUSALS.md", "## `E 1 3` on a file written before the field \"detailed to annex E\"");
    let [command] = &indented(&section)[..] else { panic!("one command") };
    for name in ["plain-block", "cases-tension"] {
        let survey = samples::survey(name);
        let earlier = without_last_field(&survey);
        assert_eq!(text(&same_determine(&earlier, SHEET_MOST)), text(&refusal_line(1, 3)), "{name}");
        let new = mended(command.trim_end(), &earlier);
        assert!(new == survey, "{name}:\n{}", text(&new));
        assert_eq!(mended(command.trim_end(), &survey), survey, "{name}, which has the field");
    }
    assert_eq!(without_last_field(&samples::survey("plain-block")), samples::survey("refusal-1-without-last-field"));
}

#[test]
fn the_last_line_feed_is_added() {
    let [command] = &indented(&section("REFUSALS.md", "## `E 1` at the last line"))[..] else { panic!("one command") };
    for (name, line) in [("plain-block", 16), ("cases-tension", 27)] {
        let survey = samples::survey(name);
        let cut = &survey[..survey.len() - 1];
        assert_eq!(text(&same_determine(cut, SHEET_MOST)), text(&refusal_line(1, line)), "{name}");
        assert!(mended(command.trim_end(), cut) == survey, "{name}");
        assert!(mended(command.trim_end(), &survey) == survey, "{name}, which has it");
    }
}

#[test]
fn the_fields_of_a_line_are_numbered() {
    let [command] = &indented(&section("REFUSALS.md", "## A line's fields, numbered"))[..] else { panic!("one command") };
    for name in ["plain-block", "cases-tension", "tension"] {
        let survey = samples::survey(name);
        let folder = Folder::new("numbered");
        folder.put("FILE", &survey);
        let output = folder.bash(command, &folder.0);
        let line = text(&survey).lines().nth(3 - 1).expect("line 3").to_string();
        let fields: String = (1..).zip(line[1..].as_bytes().chunks(8)).map(|(i, field)| format!("{i:>2} {}\n", text(field))).collect();
        assert_eq!((text(&output.stdout), text(&output.stderr)), (fields, String::new()), "{name}");
    }
}
