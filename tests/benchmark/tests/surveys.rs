//! The surveys of the benchmark: both programs agree on them, and they hold what is to be measured.
use benchmark::stages::{check_all, Bench};
use benchmark::surveys::{sizes, survey, FORMS};
use generator::{bytes_of, INPUT_MOST};
use independent::{judge_member, judge_storey, MemberFinding, Survey};

/// The limits of m that stand at rows of the tables.
const AT_ROWS: [u64; 10] = [100_000, 125_000, 150_000, 250_000, 300_000, 400_000, 450_000, 500_000, 600_000, 700_000];

/// What is found of the members in each case of a survey's form.
fn findings(s: &Survey) -> Vec<Vec<MemberFinding>> {
    let (k, form) = (s.header.knowledge, s.header.form);
    let mut found: Vec<Vec<MemberFinding>> = Vec::new();
    let mut rest = &s.members[..];
    for storey in &s.storeys {
        let (own, later) = rest.split_at(storey.count as usize);
        let cases = judge_storey(k, form, storey, own).expect("a good storey").cases;
        let met = std::array::from_fn(|i| cases.get(i).is_some_and(|case| case.meets_wall_share));
        found.resize(cases.len(), Vec::new());
        for m in own {
            let of_member = judge_member(k, form, met, m).expect("a good member");
            found.iter_mut().zip(of_member).for_each(|(of_case, f)| of_case.push(f));
        }
        rest = later;
    }
    found
}

/// A limit of m that stands between rows, and is not three quarters of one at a row.
fn between_rows(f: &MemberFinding) -> bool {
    AT_ROWS.iter().all(|&limit| f.m_limit != limit && f.m_limit != limit * 3 / 4)
}

#[test]
fn both_programs_agree() {
    check_all();
}

#[test]
fn members_and_storeys() {
    for (form, members) in FORMS.into_iter().zip([[10, 100, 299], [10, 100, 144]]) {
        assert_eq!(sizes(form).map(|sizes| survey(form, sizes).members.len()), members);
        for sizes in sizes(form) {
            assert!(sizes.len() <= 10 && sizes.iter().all(|&count| count <= 200));
        }
        let [.., most] = sizes(form);
        let bytes = Bench::new(form, most).bytes.len();
        assert!(bytes <= INPUT_MOST && INPUT_MOST < bytes_of(form, most.len(), members[2] + 1), "{bytes} bytes");
    }
}

#[test]
fn classes_limits_and_members_over() {
    for s in FORMS.into_iter().flat_map(|form| sizes(form).map(|sizes| survey(form, sizes))) {
        for found in findings(&s) {
            for class in 1..=5 {
                assert!(found.iter().any(|f| f.class == class), "class {class} among {}", found.len());
            }
            let (over, between) = (found.iter().filter(|f| f.over).count(), found.iter().filter(|f| between_rows(f)).count());
            assert!(over > 0 && over < found.len(), "{over} over of {}", found.len());
            assert!(2 * between > found.len(), "{between} limits between rows of {}", found.len());
        }
    }
}
