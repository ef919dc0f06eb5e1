//! Site classes, uses, map coefficients and periods: mostly such as are taken, at the columns and lines where the rules turn, some beyond.
use crate::Rng;
use independent::{site, Motion};

/// ZA to ZF, now and then a class that is not listed.
pub fn site_class(rng: &mut Rng) -> u64 {
    if rng.chance(3) {
        return rng.pick(&[0, 7, u64::MAX]);
    }
    rng.between(1, 6) as u64
}

/// One of the two uses, now and then another.
pub fn usage(rng: &mut Rng) -> u64 {
    if rng.chance(3) {
        return rng.pick(&[0, 3, u64::MAX]);
    }
    rng.between(1, 2) as u64
}

/// A map coefficient: about the columns of a table, over the whole range, or beside it.
fn coefficient(rng: &mut Rng, last_column: i128) -> u64 {
    match rng.below(20) {
        0 => rng.pick(&[0, 1_000, u64::MAX]),
        1 => rng.pick(&[1, 999]),
        2..=9 => rng.between(1, 999) as u64,
        _ => rng.between(1, last_column + 10) as u64,
    }
}

/// The map coefficients of a level of ground motion.
pub fn map_coefficients(rng: &mut Rng) -> Motion {
    Motion { ss: coefficient(rng, 150), s1: coefficient(rng, 60) }
}

/// A period at or beside T_A, T_B or T_L of a site, any other, or one beyond the range.
pub fn period(rng: &mut Rng, class: u64, motion: Motion) -> u64 {
    let turns = match site(class, motion.ss, motion.s1) {
        Ok(f) => [200 * f.s_d1 / f.s_ds, 1_000 * f.s_d1 / f.s_ds, 6_000],
        Err(_) => [0, 99_999, 6_000],
    };
    match rng.below(20) {
        0 => rng.pick(&[0, 99_999, 100_000, u64::MAX]),
        1..=6 => rng.between(0, 99_999) as u64,
        _ => (rng.pick(&turns) + rng.below(4)).saturating_sub(1),
    }
}
