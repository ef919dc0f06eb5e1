//! Prints what each stage costs the proved code and the independent program on the same surveys, as ratios within this run, and how the
//! cost grows with the survey.
use benchmark::measure::{instructions, run, seconds, valgrind_is_there, RUN};
use benchmark::stages::{check_all, Stage, PARTS, STAGES};
use benchmark::surveys::{growth, sizes, BOTH, FORMS, GROWTH};
use generator::bytes_of;
use independent::lines::cases_of;

const ABOUT: &str = "\
The proved code (the static library) and the independent program (cargo's release profile) on the same surveys, on which both give the
same answer. read: from the file's bytes to records; judge: the building, over records already read; report: from records already read to
the sheet's bytes; write: from records already read to the file's bytes; whole: from the file's bytes to the sheet's.
Memory of the proved code: rows, sheet, file and numbers put out are allocated and written to before counting, and used again by every call; in
the whole way the rows are on the stack and are blanked by every call.
Memory of the independent program: every call allocates its rows, its sheet or its file and frees them, and this is counted.
Instructions are those of one call after a first one, counted by callgrind, which counts each repetition of a string instruction (the C
library fills and copies long blocks by them). Times are the fastest of many measurements and differ from run to run.
";

fn main() {
    let arguments: Vec<String> = std::env::args().skip(1).collect();
    match arguments.split_first() {
        None => measure(),
        Some((first, rest)) if first == RUN => run(rest),
        Some(_) => panic!("no arguments are taken"),
    }
}

fn measure() {
    check_all();
    println!("{ABOUT}");
    let counted = valgrind_is_there();
    if !counted {
        println!("valgrind is not there: no instructions are counted.\n");
    }
    compare(counted);
    println!();
    compare_forms(counted);
    println!();
    grow(counted);
}

/// Each stage on surveys of both forms.
fn compare(counted: bool) {
    println!("      |         |        | instructions of one call          | microseconds of one call");
    println!("cases | members | stage  |      proved  independent    ratio |      proved  independent    ratio");
    for (form, sizes) in FORMS.into_iter().flat_map(|form| sizes(form).map(|sizes| (form, sizes))) {
        for stage in STAGES {
            let cost = Cost::of(form, sizes, stage, counted);
            let counts = cost.instructions.map_or_else(not_counted, |counts| ratio(counts, 0));
            let times = ratio(cost.seconds.map(|s| s * 1e6), 2);
            println!("{:5} | {:7} | {:6} | {counts:33} | {times}", cases_of(form), sizes.iter().sum::<u64>(), name(stage));
        }
    }
}

/// What a survey in four cases costs the proved code against one of the old form with as many members: a call, and each byte of its file.
fn compare_forms(counted: bool) {
    println!("        |        | four cases / old form  | instructions for each byte of the file");
    println!("members | stage  | instructions      time |      old form   four cases");
    for sizes in BOTH {
        let members: u64 = sizes.iter().sum();
        let bytes = FORMS.map(|form| bytes_of(form, sizes.len(), members as usize) as f64);
        for stage in STAGES {
            let [old, cases] = FORMS.map(|form| Cost::of(form, sizes, stage, counted));
            let counts = old.instructions.zip(cases.instructions).map(|(old, cases)| (old[0], cases[0]));
            let instructions = counts.map_or_else(not_counted, |(old, cases)| format!("{:.2}", cases / old));
            let each = counts.map_or_else(not_counted, |(old, cases)| format!("{:13.1} {:12.1}", old / bytes[0], cases / bytes[1]));
            println!("{members:7} | {:6} | {instructions:>12} {:9.2} | {each}", name(stage), cases.seconds[0] / old.seconds[0]);
        }
    }
}

/// Each stage on more and more storeys of 200 members. Their files are too long for the whole way.
fn grow(counted: bool) {
    println!("      | storeys |        | instructions of the proved code  | time of the proved code");
    println!("cases |  of 200 | stage  |  / one storey's  / independent's |  / one storey's  / independent's");
    for (form, stage) in FORMS.into_iter().flat_map(|form| PARTS.map(|stage| (form, stage))) {
        let costs = GROWTH.map(|storeys| Cost::of(form, &growth(storeys), stage, counted));
        for (storeys, cost) in GROWTH.iter().zip(&costs) {
            let counts = cost.instructions.zip(costs[0].instructions).map_or_else(not_counted, |(these, one)| ratios(these, one));
            println!("{:5} | {storeys:7} | {:6} | {counts:32} | {}", cases_of(form), name(stage), ratios(cost.seconds, costs[0].seconds));
        }
    }
}

fn name(stage: Stage) -> String {
    format!("{stage:?}").to_lowercase()
}

/// What one call costs the proved code and the independent program.
struct Cost {
    instructions: Option<[f64; 2]>,
    seconds: [f64; 2],
}

impl Cost {
    fn of(form: u64, sizes: &[u64], stage: Stage, counted: bool) -> Cost {
        Cost { instructions: counted.then(|| instructions(form, sizes, stage)), seconds: seconds(form, sizes, stage) }
    }
}

fn not_counted() -> String {
    "not counted".to_string()
}

/// Both programs' cost with so many decimals, and their ratio.
fn ratio([proved, independent]: [f64; 2], decimals: usize) -> String {
    format!("{proved:11.decimals$} {independent:12.decimals$} {:8.3}", proved / independent)
}

/// The proved code's cost as ratios to its cost of one storey and to the independent program's cost.
fn ratios([proved, independent]: [f64; 2], [proved_one, _]: [f64; 2]) -> String {
    format!("{:15.2} {:16.3}", proved / proved_one, proved / independent)
}
