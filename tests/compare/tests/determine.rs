//! `determine`, as a call and as a program, against the independent program, byte by byte.
use compare::programs::{outcome, run_at_a_terminal, said};
use compare::{program, refusal_line, refusal_told, same_determine, samples, worked_example, worked_examples, FILE_REFUSALS, FORMS, REFUSALS};
use generator::{any_file, damage, lent_bytes, member_bytes, surveys_at_rows, valid_survey, valid_survey_of, write_survey, Rng, INPUT_MOST};
use independent::lines::OLD_FORM;
use std::collections::BTreeSet;
use std::fs::{self, File, OpenOptions};
use std::io::{ErrorKind, Write};
use std::os::fd::OwnedFd;
use std::os::unix::net::UnixStream;
use std::path::Path;
use std::process::{ChildStdin, Command, Output, Stdio};
use std::thread::sleep;
use std::time::Duration;

const SEED: u64 = 20_260_119;
/// More bytes than the sheet of any file that is determined has.
const ROOM: usize = 62_000;

/// The lines at which each refusal came up, and how many files were accepted.
#[derive(Default)]
struct Seen {
    accepted: u32,
    lines: [BTreeSet<u64>; REFUSALS],
}

impl Seen {
    fn note(&mut self, printed: &[u8]) {
        match refusal_told(printed) {
            None => self.accepted += 1,
            Some(told) => self.lines[told.number as usize].extend([told.line]),
        }
    }

    /// At how many lines each refusal of a file came up, in the order of FILE_REFUSALS.
    fn counts(&self) -> [usize; 9] {
        FILE_REFUSALS.map(|number| self.lines[number].len())
    }
}

// ---- the call ----

#[test]
fn generated_files_good_and_damaged() {
    let mut rng = Rng::new(SEED);
    let mut seen = Seen::default();
    for _ in 0..20_000 {
        seen.note(&same_determine(&any_file(&mut rng), ROOM));
    }
    let counts = seen.counts();
    assert!(counts[..6].iter().chain(&counts[8..]).all(|&n| n >= 20), "refusals 1 to 6 and 12 at many lines: {counts:?}");
    assert_eq!((&seen.lines[7], &seen.lines[8]), (&BTreeSet::from([1]), &BTreeSet::from([0])));
    assert!(seen.accepted > 5_000, "{} accepted", seen.accepted);
}

/// A good file of a form that is long.
fn large_file(rng: &mut Rng, form: u64) -> Vec<u8> {
    loop {
        let bytes = write_survey(&valid_survey_of(rng, form));
        if bytes.len() > 20_000 {
            return bytes;
        }
    }
}

#[test]
fn large_files() {
    let mut rng = Rng::new(SEED + 1);
    for form in FORMS {
        let mut seen = Seen::default();
        let mut longest = 0;
        for _ in 0..300 {
            let bytes = large_file(&mut rng, form);
            longest = longest.max(bytes.len());
            assert_eq!(refusal_told(&same_determine(&bytes, ROOM)), None);
            seen.note(&same_determine(&damage(&mut rng, &bytes), ROOM));
        }
        assert!(longest > INPUT_MOST - member_bytes(form), "the longest file of form {form} has {longest} bytes");
        assert!(seen.lines[2].len() > 20, "{:?}", seen.counts());
    }
}

#[test]
fn every_row_of_the_tables() {
    for survey in FORMS.into_iter().flat_map(surveys_at_rows) {
        let printed = same_determine(&write_survey(&survey), ROOM);
        assert_eq!(refusal_told(&printed), None);
    }
}

/// A buffer one byte short of the sheet, exact ones and longer ones, and those about the line `E`.
#[test]
fn buffers_of_every_length() {
    let mut rng = Rng::new(SEED + 2);
    let mut nines = 0;
    for _ in 0..2_500 {
        let bytes = any_file(&mut rng);
        let len = same_determine(&bytes, ROOM).len();
        let nine = same_determine(&bytes, len - 1) == refusal_line(9, 0);
        assert_eq!(nine, len > 26, "one byte short of {len}");
        nines += u32::from(nine);
        for room in [0, 1, 25, 26, 27, len, len + 1, lent_bytes(&mut rng, len)] {
            same_determine(&bytes, room);
        }
    }
    assert!(nines > 500, "{nines} sheets one byte short of their buffer");
}

#[test]
fn every_buffer_of_the_worked_examples() {
    for (survey, sheet) in worked_examples() {
        let file = write_survey(&survey);
        for room in 0..sheet.len() + 300 {
            let expected = match room {
                0..26 => Vec::new(),
                _ if room < sheet.len() => refusal_line(9, 0),
                _ => sheet.into(),
            };
            assert_eq!(same_determine(&file, room), expected, "{room} bytes");
        }
    }
}

#[test]
fn lengths_about_the_most_that_is_read() {
    let mut rng = Rng::new(SEED + 3);
    for fill in *b" \nBSM09\0\xff" {
        for mut bytes in [Vec::new(), write_survey(&valid_survey(&mut rng)), write_survey(&worked_example())] {
            for len in [INPUT_MOST - 1, INPUT_MOST] {
                bytes.resize(len, fill);
                let told = refusal_told(&same_determine(&bytes, ROOM)).expect("refused");
                assert_ne!(told.number, 8, "{len} bytes");
            }
            for len in [INPUT_MOST + 1, INPUT_MOST + 2, 70_000, 131_072, 200_000] {
                bytes.resize(len, fill);
                assert_eq!(same_determine(&bytes, ROOM), refusal_line(8, 0), "{len} bytes");
                assert_eq!(same_determine(&bytes, 25), b"", "{len} bytes");
            }
        }
    }
}

#[test]
fn every_length_and_byte_of_a_small_file() {
    for (survey, _) in worked_examples() {
        let bytes = write_survey(&survey);
        let lines = bytes.iter().filter(|&&byte| byte == b'\n').count();
        let mut seen = Seen::default();
        for len in 0..=bytes.len() {
            seen.note(&same_determine(&bytes[..len], ROOM));
        }
        for at in 0..bytes.len() {
            for byte in [0, b'\n', b' ', b'-', b'0', b'1', b'9', b'B', b'S', b'M', b'D', 255] {
                let mut changed = bytes.clone();
                changed[at] = byte;
                seen.note(&same_determine(&changed, ROOM));
            }
        }
        let counts = seen.counts();
        assert!(counts[..3].iter().all(|&n| n >= lines), "refusals 1 to 3 at each of the {lines} lines: {counts:?}");
    }
}

// ---- the program ----

/// Writes to the program; whether it still reads.
fn send(pipe: &mut ChildStdin, part: &[u8]) -> bool {
    match pipe.write_all(part).and_then(|()| pipe.flush()) {
        Ok(()) => true,
        Err(e) if e.kind() == ErrorKind::BrokenPipe => false,
        Err(e) => panic!("{e}"),
    }
}

/// What the program prints for input that comes by a pipe in chunks, with a pause before each; and whether all was sent.
fn run(input: &[u8], chunk: usize, pause: Duration) -> (Vec<u8>, bool) {
    let mut child = Command::new(program())
        .stdin(Stdio::piped())
        .stdout(Stdio::piped())
        .stderr(Stdio::piped())
        .spawn()
        .expect("the program starts");
    let mut pipe = child.stdin.take().expect("a pipe");
    let sent = input.chunks(chunk).all(|part| {
        sleep(pause);
        send(&mut pipe, part)
    });
    drop(pipe);
    let output = child.wait_with_output().expect("the program ends");
    assert!(output.status.code().is_some(), "ended by {}", output.status);
    assert_eq!(String::from_utf8_lossy(&output.stderr), "");
    (output.stdout, sent)
}

/// Panics unless the program prints what the independent one does, and takes all input that is not too long.
fn same_printed(input: &[u8], chunk: usize, pause: Duration) {
    let (printed, sent) = run(input, chunk, pause);
    let expected = independent::determine(input);
    let shown = String::from_utf8_lossy;
    assert!(printed == expected, "printed:\n{}\nexpected:\n{}", shown(&printed), shown(&expected));
    assert!(sent || input.len() > INPUT_MOST + 1, "stopped before the end of {} bytes", input.len());
}

fn same_at_once(input: &[u8]) {
    same_printed(input, input.len().max(1), Duration::ZERO);
}

#[test]
fn the_program_on_generated_files() {
    let mut rng = Rng::new(SEED + 4);
    let mut seen = Seen::default();
    for _ in 0..3_000 {
        let bytes = any_file(&mut rng);
        same_at_once(&bytes);
        seen.note(&independent::determine(&bytes));
    }
    let counts = seen.counts();
    assert!(counts.iter().all(|&n| n > 0) && seen.accepted > 150, "{} accepted, {counts:?}", seen.accepted);
}

#[test]
fn the_program_on_the_samples() {
    for sample in samples::all() {
        let (printed, _) = run(&sample.survey, sample.survey.len(), Duration::ZERO);
        assert_eq!(String::from_utf8_lossy(&printed), String::from_utf8_lossy(&sample.sheet), "{}", sample.name);
    }
}

#[test]
fn the_program_on_input_that_comes_in_parts() {
    let mut rng = Rng::new(SEED + 5);
    let pause = Duration::from_micros(200);
    let example = write_survey(&worked_example());
    same_printed(&example, 1, pause);
    same_printed(&example[..example.len() - 1], 1, pause);
    for chunk in [7, 219, 997, 4_095, 4_097, 65_535] {
        for form in FORMS {
            same_printed(&write_survey(&surveys_at_rows(form)[0]), chunk, pause);
        }
        same_printed(&any_file(&mut rng), chunk.max(97), pause);
    }
}

#[test]
fn the_program_on_lengths_about_the_most_that_is_read() {
    let mut bytes = write_survey(&surveys_at_rows(OLD_FORM)[0]);
    same_at_once(b"");
    for len in [INPUT_MOST - 1, INPUT_MOST, INPUT_MOST + 1, INPUT_MOST + 2, 100_000] {
        bytes.resize(len, b'\n');
        same_at_once(&bytes);
        same_printed(&bytes, 1_009, Duration::ZERO);
    }
}

#[test]
fn the_program_does_not_wait_for_the_end_of_input_that_is_too_long() {
    let (printed, sent) = run(&vec![b' '; 1_000_000], 1_000, Duration::ZERO);
    assert_eq!((printed, sent), (refusal_line(8, 0), false));
}

// ---- the program where a read or a write fails ----

const INPUT_FAILURE: &str = "determine: standard input cannot be read\n";
const OUTPUT_FAILURE: &str = "determine: standard output cannot be written\n";

/// What the program, or a shell that becomes it, prints on standard output and standard error.
fn printed(command: &mut Command) -> (String, String) {
    let Output { stdout, stderr, status } = command.output().expect("the program starts");
    assert!(status.code().is_some(), "ended by {status}");
    (String::from_utf8_lossy(&stdout).into(), String::from_utf8_lossy(&stderr).into())
}

fn silent_but(failure: &str) -> (String, String) {
    (String::new(), failure.into())
}

/// A shell whose last words are to become the program.
fn shell(words: &str) -> Command {
    let mut command = Command::new("sh");
    command.args(["-c", words]).arg(program());
    command
}

/// A good file whose sheet has more than a kilobyte.
fn walls() -> File {
    File::open(samples::folder().join("walls.survey")).expect("a sample")
}

#[test]
fn a_directory_as_standard_input() {
    let directory = File::open(env!("CARGO_MANIFEST_DIR")).expect("a directory");
    assert_eq!(printed(Command::new(program()).stdin(directory)), silent_but(INPUT_FAILURE));
}

#[test]
fn standard_input_closed() {
    assert_eq!(printed(&mut shell("exec \"$0\" <&-")), silent_but(INPUT_FAILURE));
}

/// The other end sends a whole good file and closes with a byte unread, which makes the read after the file fail.
#[test]
fn a_read_that_fails_after_a_good_file() {
    let (mut sender, mut input) = UnixStream::pair().expect("a pair of sockets");
    sender.write_all(&write_survey(&worked_example())).expect("sent");
    input.write_all(b"x").expect("sent");
    drop(sender);
    assert_eq!(printed(Command::new(program()).stdin(OwnedFd::from(input))), silent_but(INPUT_FAILURE));
}

#[test]
fn standard_output_closed() {
    assert_eq!(printed(shell("exec \"$0\" >&-").stdin(walls())), silent_but(OUTPUT_FAILURE));
    assert_eq!(printed(shell("exec \"$0\" >&-").stdin(Stdio::null())), silent_but(OUTPUT_FAILURE));
}

#[test]
fn standard_output_full() {
    let full = OpenOptions::new().write(true).open("/dev/full").expect("/dev/full");
    let mut command = Command::new(program());
    assert_eq!(printed(command.stdin(walls()).stdout(full)), silent_but(OUTPUT_FAILURE));
}

#[test]
fn standard_output_that_nobody_reads() {
    let (reader, writer) = std::io::pipe().expect("a pipe");
    drop(reader);
    assert_eq!(printed(Command::new(program()).stdin(walls()).stdout(writer)), silent_but(OUTPUT_FAILURE));
}

/// A file that may grow to one block only takes the front of the sheet, and the next write fails.
#[test]
fn standard_output_cut_off() {
    let path = std::env::temp_dir().join(format!("determine-cut-off-{}", std::process::id()));
    let file = File::create(&path).expect("a file");
    let told = printed(shell("trap '' XFSZ; ulimit -f 1; exec \"$0\"").stdin(walls()).stdout(file));
    let written = fs::read(&path).expect("the file");
    fs::remove_file(&path).expect("removed");
    assert_eq!(told, silent_but(OUTPUT_FAILURE));
    let sheet = fs::read(samples::folder().join("walls.sheet")).expect("a sample");
    assert!(!written.is_empty() && written.len() < sheet.len() && sheet.starts_with(&written), "{} bytes", written.len());
}

// ---- the program at a terminal ----

#[test]
fn a_person_at_a_terminal_is_told_what_is_awaited() {
    let awaited = "determine: a survey is awaited on standard input; for a file: determine < FILE\n";
    let file = write_survey(&worked_example());
    let folder = Path::new(env!("CARGO_TARGET_TMPDIR"));
    for (typed, sheet) in [(&b""[..], refusal_line(1, 1)), (&file, independent::determine(&file))] {
        let output = run_at_a_terminal(&program(), "", typed, folder);
        assert_eq!(said(&output), awaited);
        assert_eq!(outcome(output), (String::from_utf8(sheet).expect("text"), Some(0)));
    }
}
