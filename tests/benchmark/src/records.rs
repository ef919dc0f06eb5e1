//! The independent program's records as those of the proved library.
use independent::lines::BEFORE_CASE;
use llunareth::{HEADER_NUMBERS, MEMBER_NUMBERS, ZERO_FORCE};

pub fn header_row(h: &independent::Header) -> [u64; HEADER_NUMBERS] {
    let [k, height, storeys, tilt_1, tilt_2, count] = h.values().map(|v| v as u64);
    [k, height, storeys, tilt_1, tilt_2, count, h.form]
}

pub fn storey_row(s: &independent::Storey) -> llunareth::Storey {
    llunareth::Storey { number: s.number, shears: s.shears, count: s.count }
}

/// N_D, the last of its own numbers but one, and N_K, the first of each case, are counted from -20,000,000.
pub fn member_row(m: &independent::Member) -> llunareth::Member {
    let zero = i128::from(ZERO_FORCE);
    let mut values = m.values().to_vec();
    values[BEFORE_CASE - 1] += zero;
    for case in &m.cases {
        let first = values.len();
        values.extend(case.values());
        values[first] += zero;
    }
    let numbers: Vec<u64> = values.into_iter().map(|v| v as u64).collect();
    <[u64; MEMBER_NUMBERS]>::try_from(numbers).expect("so many numbers").into()
}
