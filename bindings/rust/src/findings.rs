//! What the calls answer.
use crate::raw::LINE_UNIT;
use crate::{CASES, FOUR_CASES};
use std::fmt;
use std::ops::Deref;

// The refusals by their numbers (REFUSALS.md); 10 and 13 are not used.

/// A line is not of the kind or length due there, or absent; a count is not that of the rows.
pub const STRUCTURE: u64 = 1;

/// A field is not written as it must be.
pub const SPELLING: u64 = 2;

/// A number is outside its range.
pub const OUT_OF_RANGE: u64 = 3;

/// The short side is above the long side.
pub const SIDES_EXCHANGED: u64 = 4;

/// A storey's or a member's number stands twice.
pub const NUMBER_REPEATED: u64 = 5;

/// Something follows the last line.
pub const TRAILING_BYTES: u64 = 6;

/// The building is above 30 m or 10 storeys.
pub const NOT_LOW_RISE: u64 = 7;

/// There are more records than rows lent, or the file is longer than [`determine`](crate::determine) takes.
pub const TOO_LARGE: u64 = 8;

/// The sheet is longer than the bytes lent.
pub const SHEET_TOO_LONG: u64 = 9;

/// The file to be written is longer than the bytes lent.
pub const FILE_TOO_LONG: u64 = 11;

/// The D lines of a member are not numbered 1, 2, 3, 4.
pub const CASE_MISNUMBERED: u64 = 12;

/// There is no spectrum for a map coefficient or a period.
pub const OUTSIDE_MAP: u64 = 14;

// The classes of members.

/// A column of class A.
pub const COLUMN_A: u64 = 1;
/// A column of class B.
pub const COLUMN_B: u64 = 2;
/// A column of class C.
pub const COLUMN_C: u64 = 3;
/// A wall of class A.
pub const WALL_A: u64 = 4;
/// A wall of class B.
pub const WALL_B: u64 = 5;

/// A refusal by its number ([`STRUCTURE`] to [`OUTSIDE_MAP`], REFUSALS.md), with the line when reading, else line 0.
#[derive(Clone, Copy, Debug, PartialEq, Eq, Hash)]
pub struct Refusal {
    pub number: u64,
    pub line: u64,
}

impl Refusal {
    /// From what a call returned.
    pub(crate) fn unpacked(returned: u64) -> Refusal {
        Refusal { number: returned % LINE_UNIT, line: returned / LINE_UNIT }
    }
}

impl fmt::Display for Refusal {
    fn fmt(&self, f: &mut fmt::Formatter<'_>) -> fmt::Result {
        match self.line {
            0 => write!(f, "refused: {}", self.number),
            line => write!(f, "refused: {} at line {line}", self.number),
        }
    }
}

impl std::error::Error for Refusal {}

/// What is found in each load case of a form, in order: one of the old form, four of the form of four cases.
#[derive(Clone, Copy, Debug, PartialEq, Eq, Hash)]
pub struct Cases<T> {
    found: [T; CASES],
    count: usize,
}

impl<T> Cases<T> {
    /// Of a form, by what stands in each case.
    pub(crate) fn of(form: u64, found: impl Fn(usize) -> T) -> Cases<T> {
        Cases { found: std::array::from_fn(found), count: if form == FOUR_CASES { CASES } else { 1 } }
    }
}

impl<T> Deref for Cases<T> {
    type Target = [T];

    fn deref(&self) -> &[T] {
        &self.found[..self.count]
    }
}

/// What is found of a member in one load case. Ratios are in hundred-thousandths ([`RATIO_SCALE`](crate::RATIO_SCALE)), rotations in microradians
/// ([`ROTATION_SCALE`](crate::ROTATION_SCALE)).
#[derive(Clone, Copy, Debug, PartialEq, Eq, Hash)]
pub struct MemberFinding {
    /// [`COLUMN_A`] to [`WALL_B`].
    pub class: u64,
    pub m: u64,
    pub m_limit: u64,
    pub rotation: u64,
    pub rotation_limit: u64,
    /// Past either limit.
    pub over: bool,
    /// The axial ratio n_D.
    pub nd: u64,
    /// The m test is dropped.
    pub m_dropped: bool,
    /// Over by m, and over by the rotation.
    pub over_m: bool,
    pub over_rotation: bool,
}

/// What is found of a storey: Risky where it is in some case.
#[derive(Clone, Copy, Debug, PartialEq, Eq, Hash)]
pub struct StoreyFinding {
    pub risky: bool,
    pub cases: Cases<StoreyCaseFinding>,
}

/// What is found of a storey in one load case. Forces are in 0.1 kN ([`FORCE_SCALE`](crate::FORCE_SCALE)).
#[derive(Clone, Copy, Debug, PartialEq, Eq, Hash)]
pub struct StoreyCaseFinding {
    /// Σ, the total of n_D, hundred-thousandths.
    pub axial_total: u64,
    /// c.
    pub members: u64,
    /// P, the total of V over the members that are over.
    pub over_shear: u64,
    /// W, the storey shear.
    pub shear: u64,
    pub risky: bool,
    /// Whether the walls carry 0.40 of the storey shear or more.
    pub walls_suffice: bool,
    /// Which rule makes it Risky: P / W above the allowed share; a member over while Σ is above 65,000 c; damage.
    pub by_share: bool,
    pub by_one_over: bool,
    pub by_damage: bool,
    /// The allowed share is the quotient of these two.
    pub allowed_num: u64,
    pub allowed_den: u64,
}

/// What is found of a building.
#[derive(Clone, Copy, Debug, PartialEq, Eq, Hash)]
pub struct BuildingFinding {
    /// The larger tilt is above 25,000 microradians.
    pub tilted: bool,
    pub risky: bool,
    /// The first Risky storey's place, counted from 1; 0 where none is Risky.
    pub place: u64,
    /// That storey's lowest numbered Risky case, 1 in the old form; 0 where none is Risky.
    pub case: u64,
}
