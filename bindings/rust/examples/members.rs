//! members < FILE: prints a table of a survey's members in each load case, as members.c does: the class, m and the rotation beside their limits,
//! and whether the member is over. Exit status: 0; 1 for a refusal; 2 where standard input cannot be read or standard output cannot be written.
use llunareth::{judge_member, judge_storey, Header, Member, MemberFinding, Refusal, Storey, CASES, RATIO_SCALE, ROTATION_SCALE};
use std::io::{self, Read, Write};
use std::process::ExitCode;

/// By the numbers of the classes.
const CLASSES: [&str; 6] = ["", "column A", "column B", "column C", "wall A", "wall B"];

fn row(storey: u64, member: u64, case: usize, f: &MemberFinding) -> String {
    let (ratio, radian) = (|n: u64| n as f64 / RATIO_SCALE as f64, |n: u64| n as f64 / ROTATION_SCALE as f64);
    let (m, m_limit, rotation, rotation_limit) = (ratio(f.m), ratio(f.m_limit), radian(f.rotation), radian(f.rotation_limit));
    let (class, over) = (CLASSES[f.class as usize], if f.over { "yes" } else { "no" });
    format!("{storey:7} {member:7} {case:4}  {class:8} {m:9.5} {m_limit:9.5} {rotation:9.6} {rotation_limit:9.6} {over:>5}\n")
}

/// Judges a storey, then each of its members with the storey's 0.40 condition.
fn rows(header: &Header, storey: &Storey, own: &[Member]) -> Result<String, Refusal> {
    let found = judge_storey(header.knowledge, header.form, storey, own)?;
    let met: [bool; CASES] = std::array::from_fn(|c| found.cases.get(c).is_some_and(|case| case.walls_suffice));
    let mut rows = String::new();
    for member in own {
        let found = judge_member(header.knowledge, header.form, met, member)?;
        rows.extend(found.iter().enumerate().map(|(c, finding)| row(storey.number, member.number, c + 1, finding)));
    }
    Ok(rows)
}

fn table(file: &[u8]) -> Result<String, Refusal> {
    let (mut storeys, mut members) = (vec![Storey::default(); 10], vec![Member::default(); 2_000]);
    let survey = llunareth::read(file, &mut storeys, &mut members)?;
    let mut table = " storey  member case  class            m     limit  rotation     limit  over\n".to_string();
    let mut rest = survey.members;
    for storey in survey.storeys {
        let (own, after) = rest.split_at(storey.count as usize);
        table += &rows(&survey.header, storey, own)?;
        rest = after;
    }
    Ok(table)
}

fn run() -> Result<u8, &'static str> {
    let mut file = Vec::new();
    io::stdin().read_to_end(&mut file).map_err(|_| "standard input cannot be read")?;
    let (text, status) = match table(&file) {
        Ok(table) => (table, 0),
        Err(Refusal { number, line }) => (format!("refused: {number} at line {line}\n"), 1),
    };
    let mut output = io::stdout();
    output.write_all(text.as_bytes()).and_then(|()| output.flush()).map_err(|_| "standard output cannot be written")?;
    Ok(status)
}

fn main() -> ExitCode {
    ExitCode::from(run().unwrap_or_else(|told| {
        eprintln!("members: {told}");
        2
    }))
}
