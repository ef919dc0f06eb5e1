//! A worse survey never clears a building: drawn pairs of surveys of one form
//! under the conditions of demand 3, case by case. Walls with boundary zone may
//! pass from A to B after N11; walls_to_b.rs draws more of these.

mod common;

use common::draw::Draw;
use common::pairs::{compare, Tried};
use independent::lines::{CASE_FORM, OLD_FORM};
use independent::Member;

#[test]
fn a_worse_survey_never_clears_a_building() {
    worse_surveys(OLD_FORM, 2_000);
}

#[test]
fn nor_does_one_in_four_cases() {
    worse_surveys(CASE_FORM, 1_000);
}

fn member_and_worse(draw: &mut Draw, k: u64, form: u64, number: u64) -> [Member; 2] {
    let m = draw.member(form, number);
    [m, draw.worse(k, form, &m)]
}

fn worse_surveys(form: u64, pairs: u64) {
    let mut draw = Draw(20_210_004 + form);
    let mut tried = Tried::default();
    for _ in 0..pairs {
        tried.add(&compare(&draw.pair(form, member_and_worse)));
    }
    // The pairs tried all of this.
    assert!(tried.least() > 20, "{tried:?}");
}
