//! One load case of a survey by itself.

use independent::lines::OLD_FORM;
use independent::{Header, LoadCase, Member, Storey, Survey};

/// The cases of a member of the old form.
pub fn one_case(load: LoadCase) -> [LoadCase; 4] {
    let mut cases = [LoadCase::default(); 4];
    cases[0] = load;
    cases
}

/// The member in the old form with case `i`, from 0, as its one case.
pub fn member_in_case(i: usize, m: &Member) -> Member {
    Member {
        cases: one_case(m.cases[i]),
        ..*m
    }
}

/// The storey in the old form with the shear of case `i` as its one shear.
pub fn storey_in_case(i: usize, s: &Storey) -> Storey {
    Storey {
        shears: [s.shears[i], 0, 0, 0],
        ..*s
    }
}

/// The survey in the old form that has case `i` of all its records.
pub fn survey_in_case(i: usize, survey: &Survey) -> Survey {
    let storeys = survey.storeys.iter().map(|s| storey_in_case(i, s));
    let members = survey.members.iter().map(|m| member_in_case(i, m));
    Survey {
        header: Header {
            form: OLD_FORM,
            ..survey.header
        },
        storeys: storeys.collect(),
        members: members.collect(),
    }
}
