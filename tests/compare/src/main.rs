//! Compares the proved library with the independent program on generated files and records: compare SEED COUNT
use compare::spectrum::{same_site, same_spectrum};
use compare::{by_storey, same_building, same_determine, same_file, same_member, same_report, same_storey};
use generator::{
    any_file, any_form, edge_member_for, file_len, lent_bytes, lent_rows, map_coefficients, period, sheet_len, site_class, usage, valid_survey,
    wild_member, wild_survey, Rng,
};
use independent::Survey;

/// The files on which the reading calls differ. Each is determined as well, in a buffer of some length.
fn compare_files(rng: &mut Rng, count: u64) -> u64 {
    let mut differences = 0;
    for _ in 0..count {
        let bytes = any_file(rng);
        let (storeys, members) = lent_rows(rng, &bytes);
        if compare::read(&bytes, storeys, members) != independent::read(&bytes, storeys, members) {
            differences += 1;
            println!("differs, {storeys} and {members} rows:\n{}", String::from_utf8_lossy(&bytes));
        }
        let length = independent::determine(&bytes).len();
        same_determine(&bytes, lent_bytes(rng, length));
    }
    differences
}

/// A survey through the report call, the writing call, the call on a building and that on each of its storeys whose members are there.
fn compare_survey(rng: &mut Rng, survey: &Survey) {
    same_report(survey, lent_bytes(rng, sheet_len(survey)));
    same_file(survey, lent_bytes(rng, file_len(survey)));
    same_building(survey);
    for (s, own) in by_storey(survey) {
        same_storey(survey.header.knowledge, survey.header.form, &s, own);
    }
}

/// A site, and a spectrum by two levels of ground motion.
fn compare_spectrum(rng: &mut Rng) {
    let (class, usage) = (site_class(rng), usage(rng));
    let (dd1, dd2) = (map_coefficients(rng), map_coefficients(rng));
    let _ = same_site(class, dd1.ss, dd1.s1);
    let _ = same_spectrum(class, usage, dd1, dd2, period(rng, class, dd2));
}

fn main() {
    let mut args = std::env::args().skip(1).map(|a| a.parse::<u64>().expect("a number"));
    let (seed, count) = (args.next().unwrap_or(1), args.next().unwrap_or(10_000));
    let mut rng = Rng::new(seed);
    let differences = compare_files(&mut rng, count);
    for _ in 0..count {
        let k = rng.pick(&[90, 100]);
        let form = any_form(&mut rng);
        let met = std::array::from_fn(|_| rng.chance(50));
        same_member(k, form, met, &edge_member_for(&mut rng, k, form));
        same_member(k, form, met, &wild_member(&mut rng, form));
        let (valid, wild) = (valid_survey(&mut rng), wild_survey(&mut rng));
        compare_survey(&mut rng, &valid);
        compare_survey(&mut rng, &wild);
        compare_spectrum(&mut rng);
    }
    println!("seed {seed}: {count} files, {differences} differences; members, storeys, buildings, reports, written files, printed sheets, sites and spectra agree");
    if differences > 0 {
        std::process::exit(1);
    }
}
