//! Standard input to standard output.

use std::io::{Read, Write};

fn main() {
    let mut input = Vec::new();
    let _ = std::io::stdin().lock().read_to_end(&mut input);
    let output = independent::determine(&input);
    let mut out = std::io::stdout().lock();
    let _ = out.write_all(&output);
    let _ = out.flush();
}
