//! Instructions and time of one call.
use crate::stages::{Bench, Program, Stage, PROGRAMS, STAGES};
use std::process::Command;
use std::time::{Duration, Instant};

/// Calls that are counted: once so many, once twice so many.
const COUNTED: u64 = 3;

/// Members in the calls of one measurement of time, at least one call, and how long measurements are repeated.
const TIMED: u64 = 1_000;
const REPEATED: Duration = Duration::from_millis(300);

/// The argument by which this program runs one stage and prints nothing.
pub const RUN: &str = "run";

pub fn valgrind_is_there() -> bool {
    Command::new("valgrind").arg("--version").output().is_ok_and(|done| done.status.success())
}

/// Instructions of one call by each program: those of twice as many calls less those of the calls, so that what is done once falls out.
pub fn instructions(form: u64, sizes: &[u64], stage: Stage) -> [f64; 2] {
    PROGRAMS.map(|program| {
        let once = collected(form, sizes, program, stage, COUNTED);
        let twice = collected(form, sizes, program, stage, 2 * COUNTED);
        (twice - once) as f64 / COUNTED as f64
    })
}

/// Instructions of a run of this program with so many calls, counted by callgrind.
fn collected(form: u64, sizes: &[u64], program: Program, stage: Stage, calls: u64) -> u64 {
    let sizes: Vec<String> = sizes.iter().map(u64::to_string).collect();
    let done = Command::new("valgrind")
        .args(["--tool=callgrind", "--callgrind-out-file=/dev/null"])
        .arg(std::env::current_exe().expect("this program"))
        .args([RUN, &format!("{program:?}"), &format!("{stage:?}"), &calls.to_string(), &form.to_string(), &sizes.join(",")])
        .output()
        .expect("valgrind runs");
    let told = String::from_utf8_lossy(&done.stderr);
    assert!(done.status.success(), "{told}");
    let total = told.lines().find_map(|line| line.split_once("Collected : ")).expect("a total").1;
    total.trim().parse().expect("a number")
}

/// Runs one stage as the arguments after `run` say: program, stage, calls, form, the members of each storey. One call goes before.
pub fn run(arguments: &[String]) {
    let [program, stage, calls, form, sizes] = arguments else { panic!("{RUN} PROGRAM STAGE CALLS FORM SIZES") };
    let program = PROGRAMS.into_iter().find(|p| format!("{p:?}") == *program).expect("a program");
    let stage = STAGES.into_iter().find(|s| format!("{s:?}") == *stage).expect("a stage");
    let calls: u64 = calls.parse().expect("a number of calls");
    let form: u64 = form.parse().expect("a form");
    let sizes: Vec<u64> = sizes.split(',').map(|size| size.parse().expect("a number of members")).collect();
    let mut bench = Bench::new(form, &sizes);
    for _ in 0..=calls {
        bench.run(program, stage);
    }
}

/// Seconds of one call by each program: the fastest of many measurements, in which the programs take turns.
pub fn seconds(form: u64, sizes: &[u64], stage: Stage) -> [f64; 2] {
    let mut bench = Bench::new(form, sizes);
    let calls = (TIMED / sizes.iter().sum::<u64>()).max(1);
    let mut fastest = [f64::INFINITY; 2];
    let start = Instant::now();
    while start.elapsed() < REPEATED {
        for (program, best) in PROGRAMS.into_iter().zip(&mut fastest) {
            *best = best.min(seconds_once(&mut bench, program, stage, calls));
        }
    }
    fastest
}

fn seconds_once(bench: &mut Bench, program: Program, stage: Stage, calls: u64) -> f64 {
    let start = Instant::now();
    for _ in 0..calls {
        bench.run(program, stage);
    }
    start.elapsed().as_secs_f64() / calls as f64
}
