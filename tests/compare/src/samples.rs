//! The sample surveys, each with its sheet beside it.
use std::fs;
use std::path::{Path, PathBuf};

pub struct Sample {
    pub name: String,
    pub survey: Vec<u8>,
    pub sheet: Vec<u8>,
}

/// The folder of the samples.
pub fn folder() -> PathBuf {
    Path::new(env!("CARGO_MANIFEST_DIR")).join("../../samples")
}

/// The names of the files with an ending, in order.
pub fn names(ending: &str) -> Vec<String> {
    let entries = fs::read_dir(folder()).expect("the folder samples");
    let files = entries.map(|entry| entry.expect("a file").file_name().into_string().expect("a plain name"));
    let mut names: Vec<String> = files.filter_map(|file| file.strip_suffix(ending).map(String::from)).collect();
    names.sort();
    names
}

/// All samples, in the order of their names.
pub fn all() -> Vec<Sample> {
    names(".survey").into_iter().map(sample).collect()
}

fn path(name: &str, ending: &str) -> PathBuf {
    folder().join(format!("{name}{ending}"))
}

fn bytes(name: &str, ending: &str) -> Vec<u8> {
    fs::read(path(name, ending)).unwrap_or_else(|e| panic!("{name}{ending}: {e}"))
}

/// The survey of a sample.
pub fn survey(name: &str) -> Vec<u8> {
    bytes(name, ".survey")
}

fn write(name: &str, ending: &str, bytes: &[u8]) {
    fs::write(path(name, ending), bytes).unwrap_or_else(|e| panic!("{name}{ending}: {e}"));
}

/// Puts the survey of a sample in the folder.
pub fn write_survey(name: &str, survey: &[u8]) {
    write(name, ".survey", survey);
}

/// Puts the sheet of a sample beside its survey.
pub fn write_sheet(name: &str, sheet: &[u8]) {
    write(name, ".sheet", sheet);
}

fn sample(name: String) -> Sample {
    let (survey, sheet) = (survey(&name), bytes(&name, ".sheet"));
    Sample { name, survey, sheet }
}
