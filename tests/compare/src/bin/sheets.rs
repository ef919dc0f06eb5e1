//! Writes the sheet of each sample survey beside it; stops at one that the independent program prints otherwise.
use compare::{same_determine, samples};
use llunareth::SHEET_MOST;

fn main() {
    let names = samples::names(".survey");
    for name in &names {
        samples::write_sheet(name, &same_determine(&samples::survey(name), SHEET_MOST));
    }
    println!("{} sheets written", names.len());
}
