//! Site coefficients and spectra by the proved library and by the independent program, and the numbers that the program `site_table` prints.
use compare::picture::{file, picture, DD1, DD2};
use compare::spectrum::{same_site, same_spectrum, site, spectrum};
use generator::{map_coefficients, period, site_class, usage, Rng};
use independent::{site_table, Motion, Refusal};
use std::path::Path;

const SEED: u64 = 20_260_308;
const CLASSES: std::ops::RangeInclusive<u64> = 1..=6;
const MAP: std::ops::RangeInclusive<u64> = 1..=999;

fn refused<T>(number: u8) -> Result<T, Refusal> {
    Err(Refusal::at(number, 0))
}

#[test]
fn every_class_at_every_hundredth() {
    for class in CLASSES {
        for hundredth in MAP {
            assert!(same_site(class, hundredth, 1_000 - hundredth).is_ok());
        }
    }
}

/// Periods at and beside T_A, T_B and T_L of a level of ground motion, and both ends.
fn turns(class: u64, m: Motion) -> Vec<u64> {
    let f = site(class, m.ss, m.s1).expect("accepted");
    let beside = |t: u64| [t.saturating_sub(1), t, t + 1, t + 2];
    let mut periods: Vec<u64> = [200 * f.s_d1 / f.s_ds, 1_000 * f.s_d1 / f.s_ds, 6_000].into_iter().flat_map(beside).collect();
    periods.extend([0, 99_999]);
    periods.retain(|&t| t <= 99_999);
    periods
}

fn at_every_turn(class: u64, m: Motion, other: Motion) {
    for period in turns(class, m) {
        for (usage, dd1, dd2) in [(1, m, other), (1, other, m), (2, other, m)] {
            assert!(same_spectrum(class, usage, dd1, dd2, period).is_ok());
        }
    }
}

#[test]
fn every_class_and_hundredth_at_every_turn_of_the_spectrum() {
    let other = Motion { ss: 90, s1: 25 };
    for class in CLASSES {
        for hundredth in MAP {
            at_every_turn(class, Motion { ss: hundredth, s1: 25 }, other);
            at_every_turn(class, Motion { ss: 90, s1: hundredth }, other);
        }
    }
}

#[test]
fn random_sites_and_spectra() {
    let mut rng = Rng::new(SEED);
    let mut seen = [0; 4];
    for _ in 0..200_000 {
        let (class, usage, dd1, dd2) = (site_class(&mut rng), usage(&mut rng), map_coefficients(&mut rng), map_coefficients(&mut rng));
        let of = if usage == 2 { dd2 } else { dd1 };
        let period = period(&mut rng, class, of);
        let _ = same_site(class, dd1.ss, dd1.s1);
        seen[match same_spectrum(class, usage, dd1, dd2, period) {
            Ok(_) => (usage - 1) as usize,
            Err(r) => if r.number == 14 { 2 } else { 3 },
        }] += 1;
    }
    assert!(seen.iter().all(|&n| n > 1_000), "both uses and both refusals come up: {seen:?}");
}

#[test]
fn fourteen_before_three() {
    let (good, bad) = (Motion { ss: 100, s1: 30 }, [(0, 30), (1_000, 30), (100, 0), (100, 1_000), (u64::MAX, u64::MAX)]);
    for class in [0, 4, 7] {
        for (ss, s1) in bad {
            let m = Motion { ss, s1 };
            assert_eq!(same_site(class, ss, s1), refused(14));
            for usage in [0, 1, 2, 3] {
                assert_eq!(same_spectrum(class, usage, m, good, 500), refused(14));
                assert_eq!(same_spectrum(class, usage, good, m, 500), refused(14));
            }
        }
        assert_eq!(same_spectrum(class, 3, good, good, 100_000), refused(14));
    }
    for class in [0, 7, u64::MAX] {
        assert_eq!(same_site(class, 100, 30), refused(3));
        assert_eq!(same_spectrum(class, 1, good, good, 500), refused(3));
    }
    for usage in [0, 3, u64::MAX] {
        assert_eq!(same_spectrum(4, usage, good, good, 99_999), refused(3));
    }
}

#[test]
fn zf_is_ze() {
    for hundredth in MAP {
        assert_eq!(site(6, hundredth, hundredth), site(5, hundredth, hundredth));
    }
}

/// 1.5 × 2.00000 and 3.00000: DD-1 stays where both are equal, and its S_D1 with it; at one hundredth more it is replaced.
#[test]
fn replaced_only_where_the_smaller() {
    let dd2 = Motion { ss: 200, s1: 50 };
    for (ss, expected) in [(300, 102_000), (301, 135_000)] {
        assert_eq!(same_spectrum(4, 1, Motion { ss, s1: 60 }, dd2, 1_000), Ok(expected), "S_S {ss}");
    }
}

/// Where T_B exceeds T_L, S_DS holds to T_B, and the last line follows.
#[test]
fn t_b_beyond_t_l() {
    let m = Motion { ss: 10, s1: 99 };
    for (period, expected) in [(6_000, 8_000), (6_001, 8_000), (9_900, 8_000), (9_901, 4_848)] {
        assert_eq!(same_spectrum(1, 1, m, m, period), Ok(expected), "{period} ms");
    }
}

/// The claim `NeverRises`, over whole spectra.
#[test]
fn never_rises_from_t_a_on() {
    for (class, ss, s1) in [(1, 10, 99), (3, 80, 30), (5, 40, 60), (6, 999, 1)] {
        let m = Motion { ss, s1 };
        let f = site(class, ss, s1).expect("accepted");
        let from = (200 * f.s_d1).div_ceil(f.s_ds);
        let values: Vec<u64> = (from..=99_999).map(|t| spectrum(class, 2, m, m, t).expect("accepted")).collect();
        assert!(values.windows(2).all(|w| w[1] <= w[0]), "class {class}");
    }
}

#[test]
fn the_printed_numbers() {
    let printed = std::fs::read_to_string(Path::new(env!("CARGO_MANIFEST_DIR")).join("../../crates/site_table/stdout")).expect("the text");
    let numbers: Vec<u64> = printed.lines().map(|line| line.parse().expect("a number")).collect();
    assert!(printed.ends_with('\n'));
    assert_eq!(numbers, site_table());
    let short = (1..=5).flat_map(|class| (25..=150).map(move |ss| site(class, ss, 10).expect("accepted").f_s));
    let long = (1..=5).flat_map(|class| (10..=60).map(move |s1| site(class, 25, s1).expect("accepted").f_1));
    assert_eq!(numbers, short.chain(long).collect::<Vec<u64>>());
}

/// The rows of a table of docs/SPECTRUM.md that begin with a site class, in whole numbers of their grids.
fn page_rows(columns: usize) -> Vec<(u64, Vec<u64>)> {
    let page = std::fs::read_to_string(Path::new(env!("CARGO_MANIFEST_DIR")).join("../../docs/SPECTRUM.md")).expect("the page");
    let classes = ["| ZA |", "| ZB |", "| ZC |", "| ZD |", "| ZE |", "| ZF |"];
    let class = |line: &str| classes.iter().position(|start| line.starts_with(start)).map(|place| place as u64 + 1);
    let figures = |line: &str| line.split('|').skip(2).map(|cell| cell.trim().replace('.', "")).filter_map(|cell| cell.parse().ok()).collect();
    let rows = page.lines().filter_map(|line| class(line).map(|class| (class, figures(line))));
    rows.filter(|(_, figures): &(u64, Vec<u64>)| figures.len() == columns).collect()
}

#[test]
fn the_sites_of_the_page() {
    let (dd1, dd2) = (Motion { ss: DD1.ss, s1: DD1.s1 }, Motion { ss: DD2.ss, s1: DD2.s1 });
    let (sites, spectra) = (page_rows(4), page_rows(5));
    assert_eq!((sites.len(), spectra.len()), (6, 12));
    for (class, figures) in sites {
        let f = same_site(class, dd2.ss, dd2.s1).expect("accepted");
        assert_eq!(figures, [f.f_s, f.f_1, f.s_ds, f.s_d1], "class {class}");
    }
    for (class, figures) in spectra {
        let found = [0, 300, 1_000, 7_000].map(|period| same_spectrum(class, figures[0], dd1, dd2, period).expect("accepted"));
        assert_eq!(figures[1..], found, "class {class}, use {}", figures[0]);
    }
}

/// `--bin picture` draws it anew.
#[test]
fn the_picture_of_the_page() {
    assert_eq!(std::fs::read_to_string(file()).expect("the picture"), picture());
}
