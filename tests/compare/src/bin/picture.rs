//! Draws docs/spectrum.svg from the proved library's numbers.
use compare::picture::{file, picture};

fn main() {
    std::fs::write(file(), picture()).expect("written");
}
