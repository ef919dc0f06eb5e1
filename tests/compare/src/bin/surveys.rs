//! Writes every sample survey from its description.
use compare::{samples, surveys};

fn main() {
    let surveys = surveys::all();
    for (name, survey) in &surveys {
        samples::write_survey(name, survey);
    }
    println!("{} surveys written", surveys.len());
}
