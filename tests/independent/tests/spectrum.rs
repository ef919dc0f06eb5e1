//! Site coefficients and the spectrum, worked out by hand from document 001
//! and request N8.

mod common;

use common::refused;
use independent::spectrum::{coefficient_f_1, coefficient_f_s, USE_1, USE_2};
use independent::spectrum::{ZA, ZB, ZC, ZD, ZE, ZF};
use independent::{site, site_table, spectrum, Fraction, Motion, SiteFinding};

const CLASSES: [u64; 6] = [ZA, ZB, ZC, ZD, ZE, ZF];

fn motion(ss: u64, s1: u64) -> Motion {
    Motion { ss, s1 }
}

/// F_S in thousandths.
fn f_s(class: u64, ss: u64) -> u64 {
    site(class, ss, 1).unwrap().f_s
}

/// F_1 in thousandths.
fn f_1(class: u64, s1: u64) -> u64 {
    site(class, 1, s1).unwrap().f_1
}

/// The plain spectrum of one level: use 1 with both levels alike, so that 1.5
/// times DD-2 is the larger.
fn plain(class: u64, level: Motion, period: u64) -> u64 {
    spectrum(class, USE_1, level, level, period).unwrap()
}

fn use_1(class: u64, dd1: Motion, dd2: Motion, period: u64) -> u64 {
    spectrum(class, USE_1, dd1, dd2, period).unwrap()
}

fn use_2(class: u64, dd2: Motion, period: u64) -> u64 {
    spectrum(class, USE_2, motion(1, 1), dd2, period).unwrap()
}

// ---- tables 2.3 and 2.4 ----

#[test]
fn codes() {
    assert_eq!(CLASSES, [1, 2, 3, 4, 5, 6]);
    assert_eq!((USE_1, USE_2), (1, 2));
}

#[test]
fn columns_of_table_2_3() {
    for (class, row) in [
        (ZA, [800, 800, 800, 800, 800, 800]),
        (ZB, [900, 900, 900, 900, 900, 900]),
        (ZC, [1300, 1300, 1200, 1200, 1200, 1200]),
        (ZD, [1600, 1400, 1200, 1100, 1000, 1000]),
        (ZE, [2400, 1700, 1300, 1100, 900, 800]),
        (ZF, [2400, 1700, 1300, 1100, 900, 800]),
    ] {
        assert_eq!([25, 50, 75, 100, 125, 150].map(|ss| f_s(class, ss)), row);
    }
}

#[test]
fn columns_of_table_2_4() {
    for (class, row) in [
        (ZA, [800, 800, 800, 800, 800, 800]),
        (ZB, [800, 800, 800, 800, 800, 800]),
        (ZC, [1500, 1500, 1500, 1500, 1500, 1400]),
        (ZD, [2400, 2200, 2000, 1900, 1800, 1700]),
        (ZE, [4200, 3300, 2800, 2400, 2200, 2000]),
        (ZF, [4200, 3300, 2800, 2400, 2200, 2000]),
    ] {
        assert_eq!([10, 20, 30, 40, 50, 60].map(|s1| f_1(class, s1)), row);
    }
}

#[test]
fn between_the_columns() {
    for (class, ss, f) in [
        (ZA, 61, 800),
        (ZB, 149, 900),
        (ZC, 26, 1_300),
        (ZC, 51, 1_296), // 1.3 - 0.1 x 1/25
        (ZC, 74, 1_204), // 1.3 - 0.1 x 24/25
        (ZC, 76, 1_200),
        (ZD, 30, 1_560),  // 1.6 - 0.2 x 5/25
        (ZD, 80, 1_180),  // 1.2 - 0.1 x 5/25
        (ZD, 120, 1_020), // 1.1 - 0.1 x 20/25
        (ZD, 126, 1_000),
        (ZE, 26, 2_372),  // 2.4 - 0.7 x 1/25
        (ZE, 60, 1_540),  // 1.7 - 0.4 x 10/25
        (ZE, 110, 1_020), // 1.1 - 0.2 x 10/25
        (ZE, 149, 804),   // 0.9 - 0.1 x 24/25
        (ZF, 149, 804),
    ] {
        assert_eq!(f_s(class, ss), f, "{class} {ss}");
    }
    for (class, s1, f) in [
        (ZA, 11, 800),
        (ZB, 59, 800),
        (ZC, 45, 1_500),
        (ZC, 51, 1_490), // 1.5 - 0.1 x 1/10
        (ZC, 59, 1_410), // 1.5 - 0.1 x 9/10
        (ZD, 15, 2_300), // 2.4 - 0.2 x 5/10
        (ZD, 35, 1_950), // 2.0 - 0.1 x 5/10
        (ZE, 11, 4_110), // 4.2 - 0.9 x 1/10
        (ZE, 25, 3_050), // 3.3 - 0.5 x 5/10
        (ZE, 33, 2_680), // 2.8 - 0.4 x 3/10
        (ZE, 58, 2_040), // 2.2 - 0.2 x 8/10
        (ZF, 58, 2_040),
    ] {
        assert_eq!(f_1(class, s1), f, "{class} {s1}");
    }
}

#[test]
fn outside_the_columns() {
    for (class, first, last) in [
        (ZA, 800, 800),
        (ZB, 900, 900),
        (ZC, 1_300, 1_200),
        (ZD, 1_600, 1_000),
        (ZE, 2_400, 800),
        (ZF, 2_400, 800),
    ] {
        assert_eq!([1, 2, 24].map(|ss| f_s(class, ss)), [first; 3]);
        assert_eq!([151, 400, 999].map(|ss| f_s(class, ss)), [last; 3]);
        let thousandths = |f| Some(Fraction::new(f as i128, 1_000));
        assert_eq!(coefficient_f_s(class, 0), thousandths(first));
        assert_eq!(coefficient_f_s(class, u64::MAX), thousandths(last));
    }
    for (class, first, last) in [
        (ZA, 800, 800),
        (ZB, 800, 800),
        (ZC, 1_500, 1_400),
        (ZD, 2_400, 1_700),
        (ZE, 4_200, 2_000),
        (ZF, 4_200, 2_000),
    ] {
        assert_eq!([1, 2, 9].map(|s1| f_1(class, s1)), [first; 3]);
        assert_eq!([61, 400, 999].map(|s1| f_1(class, s1)), [last; 3]);
        let thousandths = |f| Some(Fraction::new(f as i128, 1_000));
        assert_eq!(coefficient_f_1(class, 0), thousandths(first));
        assert_eq!(coefficient_f_1(class, u64::MAX), thousandths(last));
    }
    for class in [0, 7, u64::MAX] {
        assert_eq!(coefficient_f_s(class, 100), None);
        assert_eq!(coefficient_f_1(class, 30), None);
    }
}

/// Nothing is rounded in a site's finding.
#[test]
fn whole_on_their_grids() {
    for class in CLASSES {
        for map in 1..=999 {
            let found = site(class, map, map).unwrap();
            let thousandths = |f| Some(Fraction::new(f as i128, 1_000));
            assert_eq!(coefficient_f_s(class, map), thousandths(found.f_s));
            assert_eq!(coefficient_f_1(class, map), thousandths(found.f_1));
            assert_eq!(found.s_ds, map * found.f_s);
            assert_eq!(found.s_d1, map * found.f_1);
        }
    }
}

#[test]
fn sites() {
    // F_S = 1.2 - 0.1 x 15/25, F_1 = 2.2 - 0.2 x 5/10.
    let found = SiteFinding {
        f_s: 1_140,
        f_1: 2_100,
        s_ds: 102_600,
        s_d1: 52_500,
    };
    assert_eq!(site(ZD, 90, 25), Ok(found));
    // 0.26 x 2.372 and 0.11 x 4.11.
    let found = SiteFinding {
        f_s: 2_372,
        f_1: 4_110,
        s_ds: 61_672,
        s_d1: 45_210,
    };
    assert_eq!(site(ZE, 26, 11), Ok(found));
    assert_eq!(site(ZF, 26, 11), Ok(found));
    // The least and the most of the map.
    let found = SiteFinding {
        f_s: 2_400,
        f_1: 2_000,
        s_ds: 2_400,
        s_d1: 1_998_000,
    };
    assert_eq!(site(ZE, 1, 999), Ok(found));
    let found = SiteFinding {
        f_s: 1_200,
        f_1: 1_500,
        s_ds: 1_198_800,
        s_d1: 1_500,
    };
    assert_eq!(site(ZC, 999, 1), Ok(found));
}

#[test]
fn the_site_table() {
    let table = site_table();
    assert_eq!(table.len(), 5 * 126 + 5 * 51);
    assert_eq!(table.len(), 885);

    // First and last of each class, F_S then F_1.
    for (i, first, last) in [
        (0, 800, 800),
        (126, 900, 900),
        (252, 1_300, 1_200),
        (378, 1_600, 1_000),
        (504, 2_400, 800),
    ] {
        assert_eq!((table[i], table[i + 125]), (first, last));
    }
    for (i, first, last) in [
        (630, 800, 800),
        (681, 800, 800),
        (732, 1_500, 1_400),
        (783, 2_400, 1_700),
        (834, 4_200, 2_000),
    ] {
        assert_eq!((table[i], table[i + 50]), (first, last));
    }
    assert_eq!(table[504..508], [2_400, 2_372, 2_344, 2_316]);
    assert_eq!(table[881..], [2_060, 2_040, 2_020, 2_000]);

    // The total of each class, from the trapezia between its columns: for ZE
    // 25 x 6,600 + 1,600 and 10 x 13,800 + 3,100.
    for (i, total) in [100_800, 113_400, 155_000, 151_300, 166_600]
        .into_iter()
        .enumerate()
    {
        let numbers = &table[126 * i..126 * (i + 1)];
        assert_eq!(numbers.iter().sum::<u64>(), total);
    }
    for (i, total) in [40_800, 40_800, 75_950, 101_550, 141_100]
        .into_iter()
        .enumerate()
    {
        let numbers = &table[630 + 51 * i..630 + 51 * (i + 1)];
        assert_eq!(numbers.iter().sum::<u64>(), total);
    }

    // The same numbers as a site has.
    let mut numbers = table.into_iter();
    for class in 1..=5 {
        for ss in 25..=150 {
            assert_eq!(numbers.next(), Some(f_s(class, ss)));
        }
    }
    for class in 1..=5 {
        for s1 in 10..=60 {
            assert_eq!(numbers.next(), Some(f_1(class, s1)));
        }
    }
}

// ---- equation 2.3 ----

/// S_DS 0.8, S_D1 0.4, T_A 0.1, T_B 0.5.
#[test]
fn lines_of_the_spectrum() {
    let level = motion(100, 50);
    for (period, value) in [
        (0, 32_000),   // 0.4 x 0.8
        (1, 32_480),   // 0.406 x 0.8
        (50, 56_000),  // 0.7 x 0.8
        (99, 79_520),  // 0.994 x 0.8
        (100, 80_000), // T_A
        (101, 80_000),
        (499, 80_000),
        (500, 80_000), // T_B
        (501, 79_841), // 0.4 / 0.501 = 0.798403...
        (1_000, 40_000),
        (5_999, 6_668),  // 0.0666777...
        (6_000, 6_667),  // T_L, 0.0666666...
        (6_001, 6_665),  // 2.4 / 36.012001 = 0.0666444...
        (12_000, 1_667), // 2.4 / 144 = 0.0166666...
        (20_000, 600),   // 2.4 / 400
        (99_999, 25),    // 2.4 / 9999.800001 = 0.000240004...
    ] {
        assert_eq!(plain(ZA, level, period), value, "{period}");
    }
}

/// S_DS 0.792, S_D1 0.008, T_B 1/99 and T_A 1/495 of a second.
#[test]
fn edges_between_milliseconds() {
    let level = motion(99, 1);
    for (period, value) in [
        (2, 78_725), // (0.4 + 0.6 x 0.99) x 0.792 = 0.787248
        (3, 79_200),
        (10, 79_200),
        (11, 72_728), // 0.008 / 0.011 = 0.727272...
    ] {
        assert_eq!(plain(ZA, level, period), value, "{period}");
    }
}

/// ZE with F between columns: S_DS 0.61672, S_D1 0.4521, T_B 0.73307...,
/// T_A 0.14661...
#[test]
fn soft_ground() {
    let level = motion(26, 11);
    for class in [ZE, ZF] {
        for (period, value) in [
            (0, 24_669),   // 0.246688
            (146, 61_517), // (0.4 + 0.6 x 0.09004112 / 0.09042) x 0.61672 = 0.615169...
            (147, 61_672),
            (733, 61_672),
            (734, 61_595),   // 0.4521 / 0.734 = 0.6159400...
            (3_000, 15_070), // 0.1507
            (9_000, 3_349),  // 2.7126 / 81 = 0.0334888...
        ] {
            assert_eq!(plain(class, level, period), value, "{class} {period}");
        }
    }
}

/// S_DS 0.08, S_D1 0.48, T_A 1.2, T_B 6.
#[test]
fn t_b_at_t_l() {
    let level = motion(10, 60);
    for (period, value) in [
        (1_200, 8_000),
        (5_999, 8_000),
        (6_000, 8_000),
        (6_001, 7_998), // 2.88 / 36.012001 = 0.0799733...
    ] {
        assert_eq!(plain(ZA, level, period), value, "{period}");
    }
}

/// S_DS 0.08, S_D1 0.64, T_A 1.6, T_B 8.
#[test]
fn t_b_above_t_l() {
    let level = motion(10, 80);
    for (period, value) in [
        (0, 3_200),
        (1_599, 7_997), // 0.999625 x 0.08
        (1_600, 8_000),
        (1_601, 8_000),
        (5_999, 8_000),
        (6_000, 8_000), // not 0.64 / 6
        (6_001, 8_000),
        (7_000, 8_000), // not 3.84 / 49
        (7_999, 8_000),
        (8_000, 8_000), // not 3.84 / 64
        (8_001, 5_999), // 3.84 / 64.016001 = 0.0599850...
        (9_600, 4_167), // 3.84 / 92.16 = 0.0416666...
    ] {
        assert_eq!(plain(ZA, level, period), value, "{period}");
    }
}

/// S_DS 0.008, S_D1 0.32, T_A 8, T_B 40.
#[test]
fn t_a_above_t_l() {
    let level = motion(1, 40);
    for (period, value) in [
        (0, 320),
        (6_000, 680), // 0.85 x 0.008
        (7_000, 740), // 0.925 x 0.008
        (8_000, 800),
        (8_001, 800),
        (40_000, 800),
        (40_001, 120), // 1.92 / 1600.080001 = 0.00119994...
    ] {
        assert_eq!(plain(ZA, level, period), value, "{period}");
    }
}

/// T_B 100, then T_A 199.8: the last period is on the second and first line.
#[test]
fn edges_past_the_last_period() {
    assert_eq!(plain(ZA, motion(1, 100), 99_999), 800);
    // (0.4 + 0.6 x 99.999 / 199.8) x 0.008 = 0.0056023...
    assert_eq!(plain(ZA, motion(1, 999), 99_999), 561);
}

#[test]
fn the_smallest_values() {
    // 0.048 / 9999.800001 = 0.0000048...
    assert_eq!(plain(ZA, motion(999, 1), 99_999), 1);
    assert_eq!(use_2(ZA, motion(999, 1), 99_999), 1);
    assert_eq!(use_2(ZA, motion(1, 1), 0), 288);
}

// ---- table 2.1 ----

/// S_DS 0.8, S_D1 0.4.
#[test]
fn use_2_takes_nine_tenths() {
    let level = motion(100, 50);
    for (period, value) in [
        (0, 28_800),
        (50, 50_400),
        (99, 71_568),
        (100, 72_000),
        (500, 72_000),
        (501, 71_857),   // 0.36 / 0.501 = 0.718562...
        (6_000, 6_000),  // 0.36 / 6, not 0.9 x 0.06667
        (12_000, 1_500), // 2.16 / 144, not 0.9 x 0.01667
    ] {
        assert_eq!(use_2(ZA, level, period), value, "{period}");
    }
}

#[test]
fn use_2_has_no_part_of_dd_1() {
    let dd2 = motion(40, 10);
    for dd1 in [motion(1, 1), motion(61, 30), motion(999, 999)] {
        assert_eq!(spectrum(ZA, USE_2, dd1, dd2, 1_000), Ok(7_200));
    }
}

/// 1.5 x 0.32 = 0.48 of DD-2 against S_DS of DD-1.
#[test]
fn the_replacement() {
    let dd2 = motion(40, 10);
    // 0.472 and 0.48: DD-1 stays. S_D1 is 0.24.
    for ss in [59, 60] {
        assert_eq!(use_1(ZA, motion(ss, 30), dd2, 1_000), 24_000);
    }
    assert_eq!(use_1(ZA, motion(60, 30), dd2, 300), 48_000);
    // 0.488: replaced by 1.5 x DD-2 with its own T_A 0.05 and T_B 0.25.
    for (period, value) in [
        (0, 19_200),  // 1.5 x 0.4 x 0.32
        (25, 33_600), // 1.5 x 0.7 x 0.32
        (50, 48_000),
        (250, 48_000),
        (251, 47_809), // 0.12 / 0.251 = 0.478087...
        (1_000, 12_000),
        (6_000, 2_000),
        (7_000, 1_470), // 0.72 / 49 = 0.0146938...
    ] {
        assert_eq!(use_1(ZA, motion(61, 30), dd2, period), value, "{period}");
        assert_eq!(use_1(ZA, motion(999, 999), dd2, period), value, "{period}");
    }
}

/// An odd number of hundredths: 1.5 x 0.328 = 0.492.
#[test]
fn the_replacement_between_hundredths() {
    let dd2 = motion(41, 10);
    assert_eq!(use_1(ZA, motion(61, 30), dd2, 1_000), 24_000);
    assert_eq!(use_1(ZA, motion(62, 30), dd2, 1_000), 12_000);
}

/// S_DS alone decides, also where the replacing spectrum is the larger.
#[test]
fn the_replacement_goes_by_s_ds() {
    let (dd1, dd2) = (motion(61, 10), motion(40, 30));
    assert_eq!(use_1(ZA, dd1, dd2, 1_000), 36_000);
    let (dd1, dd2) = (motion(60, 10), motion(40, 30));
    assert_eq!(use_1(ZA, dd1, dd2, 1_000), 8_000);
}

/// S_DS and not S_S is compared, and S_DS and not S_S is taken 1.5 times.
#[test]
fn the_replacement_on_soft_ground() {
    // 1.5 x 0.85 = 1.275 against 0.76 x 1.292 = 0.98192: DD-1 stays.
    assert_eq!(use_1(ZE, motion(76, 30), motion(50, 10), 300), 98_192);
    // 1.5 x 0.25 x 2.4 = 0.9 against 0.975: replaced, T_B 0.7.
    let (dd1, dd2) = (motion(75, 30), motion(25, 10));
    assert_eq!(use_1(ZE, dd1, dd2, 500), 90_000);
    assert_eq!(use_1(ZE, dd1, dd2, 1_000), 63_000);

    // 1.5 x 0.29 x 2.288 = 0.99528 against 0.77 x 1.284 = 0.98868,
    // 0.78 x 1.276 = 0.99528 and 0.79 x 1.268 = 1.00172.
    let dd2 = motion(29, 10);
    for class in [ZE, ZF] {
        assert_eq!(use_1(class, motion(77, 30), dd2, 1_000), 84_000);
        assert_eq!(use_1(class, motion(78, 30), dd2, 1_000), 84_000);
        assert_eq!(use_1(class, motion(79, 30), dd2, 1_000), 63_000);
    }
    // ZD: 1.5 x 0.78 x 1.188 = 1.38996 against 1.39.
    assert_eq!(use_1(ZD, motion(139, 60), motion(78, 30), 2_000), 45_000);
    assert_eq!(use_1(ZD, motion(138, 60), motion(78, 30), 2_000), 51_000);
}

/// 0.9 is no part of use 1, in the comparison or after it.
#[test]
fn use_1_takes_full_dd_2() {
    // 1.35 x 0.32 = 0.432 < 0.44 < 0.48.
    assert_eq!(use_1(ZA, motion(55, 30), motion(40, 10), 1_000), 24_000);
    assert_eq!(use_1(ZA, motion(70, 30), motion(40, 10), 100), 48_000);
}

#[test]
fn rounded_once_after_the_replacement() {
    // 1.5 x 0.08 / 0.9 = 0.1333333..., not 1.5 x 0.08889 = 0.133335.
    assert_eq!(use_1(ZA, motion(61, 30), motion(40, 10), 900), 13_334);
    // 1.5 x 0.08 / 1.2 = 0.1, not 1.5 x 0.06667.
    assert_eq!(use_1(ZA, motion(61, 30), motion(40, 10), 1_200), 10_000);
}

/// Equation 2.3 in whole numbers, S in hundred-thousandths and milliseconds:
/// a numerator and a denominator.
fn as_written(s_ds: u128, s_d1: u128, t: u128) -> (u128, u128) {
    if s_ds * t <= 200 * s_d1 {
        (400 * s_ds * s_d1 + 3 * s_ds * s_ds * t, 1_000 * s_d1)
    } else if s_ds * t <= 1_000 * s_d1 {
        (s_ds, 1)
    } else if t <= 6_000 {
        (1_000 * s_d1, t)
    } else {
        (6_000_000 * s_d1, t * t)
    }
}

#[test]
fn the_spectrum_as_written() {
    let maps = [1, 9, 25, 26, 40, 55, 78, 111, 150, 487, 999];
    let periods = [
        0, 1, 17, 100, 333, 500, 999, 1_000, 2_345, 5_999, 6_000, 6_001, 20_000, 99_999,
    ];
    for class in CLASSES {
        for (ss_1, s1_1) in maps.iter().flat_map(|a| maps.map(|b| (*a, b))) {
            for (ss_2, s1_2) in [(1, 999), (25, 10), (29, 60), (333, 77), (999, 1)] {
                let first = site(class, ss_1, s1_1).unwrap();
                let second = site(class, ss_2, s1_2).unwrap();
                let (dd1, dd2) = (motion(ss_1, s1_1), motion(ss_2, s1_2));
                let replaced = 3 * second.s_ds < 2 * first.s_ds;
                let (taken, tenths) = if replaced { (second, 15) } else { (first, 10) };
                for t in periods {
                    let (a, b) = as_written(taken.s_ds.into(), taken.s_d1.into(), t.into());
                    let expected = (tenths * a).div_ceil(10 * b) as u64;
                    let found = spectrum(class, USE_1, dd1, dd2, t);
                    assert_eq!(found, Ok(expected), "{class} {dd1:?} {dd2:?} {t}");

                    let (a, b) = as_written(second.s_ds.into(), second.s_d1.into(), t.into());
                    let expected = (9 * a).div_ceil(10 * b) as u64;
                    let found = spectrum(class, USE_2, dd1, dd2, t);
                    assert_eq!(found, Ok(expected), "{class} {dd2:?} {t}");
                }
            }
        }
    }
}

// ---- refusals ----

const GOOD: [u64; 7] = [ZC, USE_1, 120, 40, 70, 20, 500];

/// Class, use, S_S and S_1 of DD-1, S_S and S_1 of DD-2, period.
fn call(a: [u64; 7]) -> Result<u64, independent::Refusal> {
    spectrum(a[0], a[1], motion(a[2], a[3]), motion(a[4], a[5]), a[6])
}

fn with(at: usize, value: u64) -> [u64; 7] {
    let mut a = GOOD;
    a[at] = value;
    a
}

#[test]
fn map_coefficients_out_of_range() {
    for at in 2..6 {
        for usage in [USE_1, USE_2] {
            for value in [0, 1_000, 1_001, u64::MAX] {
                let mut a = with(at, value);
                a[1] = usage;
                assert_eq!(refused(call(a)), (14, 0), "{at} {usage} {value}");
            }
            for value in [1, 999] {
                let mut a = with(at, value);
                a[1] = usage;
                assert!(call(a).is_ok(), "{at} {usage} {value}");
            }
        }
    }
    for value in [0, 1_000, u64::MAX] {
        assert_eq!(refused(site(ZC, value, 30)), (14, 0));
        assert_eq!(refused(site(ZC, 30, value)), (14, 0));
    }
    for value in [1, 999] {
        assert!(site(ZC, value, 30).is_ok());
        assert!(site(ZC, 30, value).is_ok());
    }
}

#[test]
fn period_out_of_range() {
    for value in [0, 1, 99_999] {
        assert!(call(with(6, value)).is_ok());
    }
    for value in [100_000, 100_001, u64::MAX] {
        assert_eq!(refused(call(with(6, value))), (14, 0));
    }
}

#[test]
fn class_and_use_not_listed() {
    for class in CLASSES {
        assert!(call(with(0, class)).is_ok());
    }
    for class in [0, 7, 8, u64::MAX] {
        assert_eq!(refused(call(with(0, class))), (3, 0));
        assert_eq!(refused(site(class, 120, 40)), (3, 0));
    }
    for usage in [1, 2] {
        assert!(call(with(1, usage)).is_ok());
    }
    for usage in [0, 3, 4, u64::MAX] {
        assert_eq!(refused(call(with(1, usage))), (3, 0));
        let mut a = with(1, usage);
        a[0] = 7;
        assert_eq!(refused(call(a)), (3, 0));
    }
}

#[test]
fn fourteen_before_three() {
    for at in 2..=6 {
        for (class, usage) in [(0, USE_1), (7, USE_2), (ZC, 0), (ZC, 3), (7, 3)] {
            let mut a = with(at, u64::MAX);
            (a[0], a[1]) = (class, usage);
            assert_eq!(refused(call(a)), (14, 0), "{at} {class} {usage}");
        }
    }
    for (ss, s1) in [(0, 40), (120, 0), (1_000, 40), (120, 1_000)] {
        assert_eq!(refused(site(7, ss, s1)), (14, 0));
        assert_eq!(refused(site(0, ss, s1)), (14, 0));
    }
    assert_eq!(refused(call([u64::MAX; 7])), (14, 0));
    assert_eq!(refused(call([0; 7])), (14, 0));
}
