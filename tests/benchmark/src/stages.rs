//! One stage of the way from a file to its sheet, by either program, on one survey.
use crate::records::{header_row, member_row, storey_row};
use crate::surveys::{growth, sizes, survey, FORMS, GROWTH};
use generator::{file_len, sheet_len, write_survey};
use independent::Survey;
use llunareth::{raw, HEADER_NUMBERS, MEMBER_NUMBERS, STOREY_NUMBERS};
use std::hint::black_box;

/// Rows lent for reading: those of the largest survey that is accepted.
const STOREY_ROWS: usize = 10;
const MEMBER_ROWS: usize = 2_000;

#[derive(Clone, Copy, Debug, PartialEq, Eq)]
pub enum Program {
    Proved,
    Independent,
}

pub const PROGRAMS: [Program; 2] = [Program::Proved, Program::Independent];

#[derive(Clone, Copy, Debug, PartialEq, Eq)]
pub enum Stage {
    /// From the file's bytes to records.
    Read,
    /// The building, over records.
    Judge,
    /// From records to the sheet.
    Report,
    /// From records to the file's bytes.
    Write,
    /// From the file's bytes to the sheet's.
    Whole,
}

pub const STAGES: [Stage; 5] = [Stage::Read, Stage::Judge, Stage::Report, Stage::Write, Stage::Whole];

/// The stages of a file that is too long for the whole way.
pub const PARTS: [Stage; 4] = [Stage::Read, Stage::Judge, Stage::Report, Stage::Write];

/// A survey as both programs take it, and what is lent to the proved code, all of it allocated and written to.
pub struct Bench {
    pub survey: Survey,
    pub bytes: Vec<u8>,
    header: [u64; HEADER_NUMBERS],
    storeys: Vec<llunareth::Storey>,
    members: Vec<llunareth::Member>,
    storey_rows: Vec<llunareth::Storey>,
    member_rows: Vec<llunareth::Member>,
    sheet: Vec<u8>,
    file: Vec<u8>,
    out: [u64; raw::READ_VALUES],
    returned: u64,
    length: usize,
}

impl Bench {
    /// The survey of a form whose storeys have so many members each.
    pub fn new(form: u64, sizes: &[u64]) -> Bench {
        let survey = survey(form, sizes);
        Bench {
            bytes: write_survey(&survey),
            header: header_row(&survey.header),
            storeys: survey.storeys.iter().map(storey_row).collect(),
            members: survey.members.iter().map(member_row).collect(),
            storey_rows: vec![[1; STOREY_NUMBERS].into(); STOREY_ROWS],
            member_rows: vec![[1; MEMBER_NUMBERS].into(); MEMBER_ROWS],
            sheet: vec![1; sheet_len(&survey)],
            file: vec![1; file_len(&survey)],
            out: [1; raw::READ_VALUES],
            returned: 1,
            length: 0,
            survey,
        }
    }

    /// One call.
    pub fn run(&mut self, program: Program, stage: Stage) {
        match program {
            Program::Proved => self.run_proved(stage),
            Program::Independent => self.run_independent(stage),
        }
    }

    fn run_proved(&mut self, stage: Stage) {
        let (header, storeys, members) = (black_box(&self.header), black_box(&self.storeys), black_box(&self.members));
        match stage {
            Stage::Read => self.returned = raw::read(black_box(&self.bytes), &mut self.storey_rows, &mut self.member_rows, &mut self.out),
            Stage::Judge => self.returned = raw::judge_building(header, storeys, members, &mut self.out),
            Stage::Report => self.returned = raw::report(header, storeys, members, &mut self.sheet, &mut self.out),
            Stage::Write => self.returned = raw::write(header, storeys, members, &mut self.file, &mut self.out),
            Stage::Whole => self.length = raw::determine(black_box(&self.bytes), &mut self.sheet),
        }
    }

    fn run_independent(&self, stage: Stage) {
        let (bytes, survey) = (black_box(&self.bytes), black_box(&self.survey));
        let (header, storeys, members) = (&survey.header, &survey.storeys, &survey.members);
        match stage {
            Stage::Read => drop(black_box(independent::read(bytes, STOREY_ROWS, MEMBER_ROWS))),
            Stage::Judge => drop(black_box(independent::judge_building(header, storeys, members))),
            Stage::Report => drop(black_box(independent::report(header, storeys, members, self.sheet.len()))),
            Stage::Write => drop(black_box(independent::write_survey(header, storeys, members, self.file.len()))),
            Stage::Whole => drop(black_box(independent::determine(bytes))),
        }
    }

    /// Panics unless both programs accept the survey and give the same answer in a stage.
    pub fn check(&mut self, stage: Stage) {
        self.clear();
        self.run(Program::Proved, stage);
        match stage {
            Stage::Read => self.check_read(),
            Stage::Judge => self.check_judged(),
            Stage::Report => self.check_report(),
            Stage::Write => self.check_write(),
            Stage::Whole => self.check_whole(),
        }
    }

    /// Takes away what an earlier call put into the lent memory.
    fn clear(&mut self) {
        self.storey_rows.fill([1; STOREY_NUMBERS].into());
        self.member_rows.fill([1; MEMBER_NUMBERS].into());
        self.sheet.fill(1);
        self.file.fill(1);
        self.out = [1; raw::READ_VALUES];
        self.returned = 1;
        self.length = 0;
    }

    fn check_read(&self) {
        let (header, filled) = self.out.split_at(HEADER_NUMBERS);
        let (storeys, members) = (filled[0] as usize, filled[1] as usize);
        assert_eq!(independent::read(&self.bytes, STOREY_ROWS, MEMBER_ROWS).as_ref(), Ok(&self.survey));
        assert_eq!(self.returned, 0, "accepted");
        assert_eq!(header, self.header);
        assert_eq!(self.storey_rows[..storeys], self.storeys);
        assert_eq!(self.member_rows[..members], self.members);
    }

    fn check_judged(&self) {
        let s = &self.survey;
        let found = independent::judge_building(&s.header, &s.storeys, &s.members).expect("accepted");
        assert_eq!(self.returned, 0, "accepted");
        assert_eq!(self.out[..4], [found.tilt_above.into(), found.risky.into(), found.place, found.case]);
    }

    fn check_report(&self) {
        let s = &self.survey;
        let sheet = independent::report(&s.header, &s.storeys, &s.members, self.sheet.len()).expect("accepted");
        assert_eq!((self.returned, self.out[0]), (0, sheet.len() as u64));
        assert_eq!(self.sheet, sheet);
    }

    fn check_write(&self) {
        let s = &self.survey;
        assert_eq!(independent::write_survey(&s.header, &s.storeys, &s.members, self.file.len()).as_ref(), Ok(&self.bytes));
        assert_eq!((self.returned, self.out[0]), (0, self.bytes.len() as u64));
        assert_eq!(self.file, self.bytes);
    }

    fn check_whole(&self) {
        let printed = independent::determine(&self.bytes);
        assert_ne!(printed[0], b'E', "accepted");
        assert_eq!(self.sheet[..self.length], printed);
    }
}

/// Panics unless both programs give the same answers on every survey that is measured.
pub fn check_all() {
    for form in FORMS {
        for sizes in sizes(form) {
            let mut bench = Bench::new(form, sizes);
            STAGES.into_iter().for_each(|stage| bench.check(stage));
        }
        for storeys in GROWTH {
            let mut bench = Bench::new(form, &growth(storeys));
            PARTS.into_iter().for_each(|stage| bench.check(stage));
        }
    }
}
