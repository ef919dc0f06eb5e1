//! What the example programs `members` print for a survey file, by the independent program.
use crate::by_storey;
use independent::lines::CASES;
use independent::{MemberFinding, Survey};

/// The most storeys and members that the examples lend rows for.
const ROWS: (usize, usize) = (10, 2_000);

const CLASSES: [&str; 5] = ["column A", "column B", "column C", "wall A", "wall B"];

/// A number divided by a power of ten, with so many places.
fn decimal(number: u64, places: usize) -> String {
    let scale = 10u64.pow(places as u32);
    format!("{}.{:0places$}", number / scale, number % scale)
}

fn row(storey: u64, member: u64, case: usize, f: &MemberFinding) -> String {
    let demands = [(f.m, 5), (f.m_limit, 5), (f.rotation, 6), (f.rotation_limit, 6)];
    let demands: String = demands.iter().map(|&(number, places)| format!(" {:>9}", decimal(number, places))).collect();
    let class = CLASSES[usize::from(f.class) - 1];
    format!("{storey:>7} {member:>7} {case:>4}  {class:<8}{demands} {:>5}\n", if f.over { "yes" } else { "no" })
}

fn rows(survey: &Survey) -> String {
    let (k, form) = (survey.header.knowledge, survey.header.form);
    let mut rows = String::new();
    for (storey, own) in by_storey(survey) {
        let found = independent::judge_storey(k, form, &storey, own).expect("accepted");
        let met: [bool; CASES] = std::array::from_fn(|c| found.cases.get(c).is_some_and(|case| case.meets_wall_share));
        for member in own {
            let found = independent::judge_member(k, form, met, member).expect("accepted");
            rows.extend(found.iter().enumerate().map(|(c, f)| row(storey.number, member.number, c + 1, f)));
        }
    }
    rows
}

/// What is printed for a file, and the exit status.
pub fn printed(file: &[u8]) -> (String, i32) {
    match independent::read(file, ROWS.0, ROWS.1) {
        Ok(survey) => (" storey  member case  class            m     limit  rotation     limit  over\n".to_string() + &rows(&survey), 0),
        Err(refusal) => (format!("refused: {} at line {}\n", refusal.number, refusal.line), 1),
    }
}
