//! A storey and the building.

use crate::fraction::Fraction;
use crate::lines::cases_of;
use crate::members::{axial_ratio, find, is_wall, MemberFinding};
use crate::records::{by_storey, check_storey_call, check_survey, Header, Member, Refusal, Storey};

/// The largest tilt that passes, microradians.
const TILT_MOST: u64 = 25_000;

/// The largest share that is allowed, hundredths.
const SHARE_MOST: i128 = 35;

/// It is allowed up to this Σ for each member, on the grid of n_D.
const SHARE_MOST_TO: i128 = 10_000;

/// None is allowed from this Σ for each member; above it one member over is
/// enough.
const SHARE_NONE_FROM: i128 = 65_000;

#[derive(Clone, Debug, PartialEq, Eq)]
pub struct StoreyFinding {
    pub number: u64,
    /// Σ, the total of n_D, hundred-thousandths.
    pub sum: u64,
    /// The member count.
    pub c: u64,
    /// The cases of the form, in order.
    pub cases: Vec<StoreyCaseFinding>,
    /// Risky in some case.
    pub risky: bool,
}

/// A storey in one load case.
#[derive(Clone, Copy, Debug, PartialEq, Eq)]
pub struct StoreyCaseFinding {
    /// The total of V over members that are over.
    pub p: u64,
    /// The storey shear.
    pub w: u64,
    /// The walls' V total at least 0.40 of the storey shear.
    pub meets_wall_share: bool,
    /// From Σ and c, so the same in every case.
    pub allowed_share: Fraction,
    /// P / W exceeds the allowed share.
    pub by_share: bool,
    /// Σ lies above the end of the allowed share and some member is over.
    pub by_one_over: bool,
    /// By the damage kinds, so the same in every case.
    pub by_damage: bool,
    /// By any of the three.
    pub risky: bool,
}

#[derive(Clone, Copy, Debug, PartialEq, Eq)]
pub struct BuildingFinding {
    /// The larger tilt exceeds 25,000.
    pub tilt_above: bool,
    pub risky: bool,
    /// The place, from 1, of the first Risky storey; 0 where there is none.
    pub place: u64,
    /// Its lowest numbered Risky case; 0 where there is none.
    pub case: u64,
}

/// A storey, given k, the form, its record and its members.
pub fn judge_storey(
    k: u64,
    form: u64,
    s: &Storey,
    members: &[Member],
) -> Result<StoreyFinding, Refusal> {
    check_storey_call(k, form, s, members)?;
    let (finding, _) = find_storey(k, form, s, members);
    Ok(finding)
}

/// A building, given its header, its storeys and the members of all storeys.
pub fn judge_building(
    h: &Header,
    storeys: &[Storey],
    members: &[Member],
) -> Result<BuildingFinding, Refusal> {
    check_survey(h, storeys, members)?;
    let mut findings = Vec::new();
    for (s, its_members) in by_storey(storeys, members) {
        findings.push(find_storey(h.knowledge, h.form, s, its_members).0);
    }
    Ok(find_building(h, &findings))
}

/// The findings of a checked storey and, case by case, of its members.
pub(crate) fn find_storey(
    k: u64,
    form: u64,
    s: &Storey,
    members: &[Member],
) -> (StoreyFinding, Vec<Vec<MemberFinding>>) {
    let mut cases = Vec::new();
    let mut members_by_case = Vec::new();
    for i in 0..cases_of(form) {
        let (case, found) = find_storey_case(k, s, members, i);
        cases.push(case);
        members_by_case.push(found);
    }
    let finding = StoreyFinding {
        number: s.number,
        sum: total_of_n_d(members),
        c: members.len() as u64,
        risky: cases.iter().any(|case| case.risky),
        cases,
    };
    (finding, members_by_case)
}

/// Case `i`, from 0, of a checked storey and of its members.
fn find_storey_case(
    k: u64,
    s: &Storey,
    members: &[Member],
    i: usize,
) -> (StoreyCaseFinding, Vec<MemberFinding>) {
    let w = s.shears[i];
    let meets_wall_share = walls_carry_their_share(w, members, i);
    let found: Vec<MemberFinding> = members
        .iter()
        .map(|m| find(k, meets_wall_share, m, &m.cases[i]))
        .collect();

    let (sum, c) = (total_of_n_d(members), members.len() as u64);
    let p = shear_of_members_over(members, &found, i);
    let some_member_over = found.iter().any(|f| f.over);

    let by_share = share_exceeded(p, w, sum, c);
    let by_one_over = one_is_enough(sum, c) && some_member_over;
    let by_damage = damage_reached(members);

    let finding = StoreyCaseFinding {
        p,
        w,
        meets_wall_share,
        allowed_share: allowed_share(sum, c),
        by_share,
        by_one_over,
        by_damage,
        risky: by_share || by_one_over || by_damage,
    };
    (finding, found)
}

/// The building from its storeys' findings.
pub(crate) fn find_building(h: &Header, storeys: &[StoreyFinding]) -> BuildingFinding {
    let tilt_above = h.tilt_1.max(h.tilt_2) > TILT_MOST;
    let some_storey_risky = storeys.iter().any(|s| s.risky);
    let (place, case) = first_risky(storeys);
    BuildingFinding {
        tilt_above,
        risky: tilt_above || some_storey_risky,
        place,
        case,
    }
}

/// The first Risky storey's place and its lowest Risky case, both from 1; 0 and
/// 0 where no storey is Risky.
fn first_risky(storeys: &[StoreyFinding]) -> (u64, u64) {
    for (i, s) in storeys.iter().enumerate() {
        for (j, case) in s.cases.iter().enumerate() {
            if case.risky {
                return (i as u64 + 1, j as u64 + 1);
            }
        }
    }
    (0, 0)
}

/// Σ. N_D is in no case, so this is the same in all.
fn total_of_n_d(members: &[Member]) -> u64 {
    members.iter().map(|m| axial_ratio(m.n_d, m) as u64).sum()
}

/// The walls' V total in case `i` >= 0.40 x storey shear.
fn walls_carry_their_share(w: u64, members: &[Member], i: usize) -> bool {
    let walls: u128 = members
        .iter()
        .filter(|m| is_wall(m))
        .map(|m| m.cases[i].v as u128)
        .sum();
    100 * walls >= 40 * w as u128
}

/// P of case `i`: in a checked storey at most 200 x 9,999,999 = 1,999,999,800.
fn shear_of_members_over(members: &[Member], found: &[MemberFinding], i: usize) -> u64 {
    let mut p = 0;
    for (m, f) in members.iter().zip(found) {
        if f.over {
            p += m.cases[i].v;
        }
    }
    p
}

/// The share of the storey shear that members over may carry: between the two
/// ends on a straight line.
fn allowed_share(sum: u64, c: u64) -> Fraction {
    let (sum, c) = (sum as i128, c as i128);
    let (first, second) = (SHARE_MOST_TO * c, SHARE_NONE_FROM * c);
    let most = Fraction::new(SHARE_MOST, 100);
    if sum <= first {
        most
    } else if sum >= second {
        Fraction::whole(0)
    } else {
        most.times(Fraction::new(second - sum, second - first))
    }
}

fn one_is_enough(sum: u64, c: u64) -> bool {
    sum as i128 > SHARE_NONE_FROM * c as i128
}

fn share_exceeded(p: u64, w: u64, sum: u64, c: u64) -> bool {
    Fraction::new(p as i128, w as i128).exceeds(allowed_share(sum, c))
}

/// 20 h1 + 28 h2 + 35 h3 + 140 h4 >= 7 c.
fn damage_reached(members: &[Member]) -> bool {
    let with_kind = |kind| members.iter().filter(|m| m.damage_kind == kind).count();
    let (h1, h2, h3, h4) = (with_kind(1), with_kind(2), with_kind(3), with_kind(4));
    20 * h1 + 28 * h2 + 35 * h3 + 140 * h4 >= 7 * members.len()
}

#[cfg(test)]
mod tests {
    use super::*;

    #[test]
    fn the_allowed_share() {
        let share = |sum, c| allowed_share(sum, c);
        assert_eq!(share(0, 2), Fraction::new(7, 20));
        assert_eq!(share(20_000, 2), Fraction::new(7, 20));
        assert_eq!(share(20_001, 2), Fraction::new(7 * 109_999, 2_200_000));
        assert_eq!(share(75_000, 2), Fraction::new(175, 1_000));
        assert_eq!(share(129_999, 2), Fraction::new(7, 2_200_000));
        assert_eq!(share(130_000, 2), Fraction::whole(0));
        assert_eq!(share(130_001, 2), Fraction::whole(0));
    }

    #[test]
    fn the_allowed_share_as_written() {
        for c in [1, 2, 3, 7, 200] {
            for sum in (10_000 * c..=65_000 * c).step_by(997) {
                let (a, b) = (65_000 * c - sum, 1_100_000 * c);
                let written = Fraction::new(7 * a as i128, b as i128);
                assert_eq!(allowed_share(sum, c), written, "{sum} {c}");
            }
        }
    }

    #[test]
    fn one_member_over() {
        for c in [1, 2, 200] {
            assert!(!one_is_enough(65_000 * c - 1, c));
            assert!(!one_is_enough(65_000 * c, c));
            assert!(one_is_enough(65_000 * c + 1, c));
        }
    }
}
