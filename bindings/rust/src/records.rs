//! The records of a survey, laid out as the proved library has them. Ranges stand in FORMAT.md.

/// N_D and N_K are counted from -20,000,000: this number stands for 0. A force handed in as it is, is refused by 3.
pub const ZERO_FORCE: u64 = 20_000_000;

/// The number that stands for a force, N_D or N_K in 0.1 kN. A force below -20,000,000 gives 0; that number, and every other that stands for a
/// force outside its range, is refused by 3.
///
/// ```
/// use llunareth::{force, signed_force, ZERO_FORCE};
/// assert_eq!((force(0), force(-1_250), force(i64::MIN)), (ZERO_FORCE, 19_998_750, 0));
/// assert_eq!((signed_force(19_998_750), signed_force(u64::MAX)), (-1_250, i64::MAX));
/// ```
pub fn force(tenths: i64) -> u64 {
    ZERO_FORCE.saturating_add_signed(tenths)
}

/// The force that a number stands for, in 0.1 kN; [`i64::MAX`] where the force is above that.
pub fn signed_force(number: u64) -> i64 {
    i64::try_from(i128::from(number) - i128::from(ZERO_FORCE)).unwrap_or(i64::MAX)
}

/// A ratio divided by this is the ratio itself: m and its limit, n_D, Σ.
pub const RATIO_SCALE: u64 = 100_000;

/// A rotation, its limit or a tilt divided by this is in radians.
pub const ROTATION_SCALE: u64 = 1_000_000;

/// A force (N_D and N_K less [`ZERO_FORCE`]) divided by this is in kN, a moment in kNm.
pub const FORCE_SCALE: u64 = 10;

/// The bytes of the longest file that [`write`](crate::write) writes: 10 storeys of 200 members in four load cases.
pub const WRITE_MOST: usize = 900_550;

/// The bytes of the longest file that [`determine`](crate::determine) takes.
pub const FILE_MOST: usize = 65_536;
/// The storey rows that it reads a file into.
pub const STOREY_ROWS: usize = 10;
/// The member rows that it reads a file into.
pub const MEMBER_ROWS: usize = 320;

/// Bytes that hold every sheet that [`determine`](crate::determine) puts out.
pub const SHEET_MOST: usize = 128_906;

/// The forms of a survey: of one load case, and of four.
pub const OLD_FORM: u64 = 1;
pub const FOUR_CASES: u64 = 2;

/// How many load cases a record holds.
pub const CASES: usize = 4;

/// How many numbers a record has.
pub const HEADER_NUMBERS: usize = 7;
pub const STOREY_NUMBERS: usize = 6;
pub const CASE_NUMBERS: usize = 8;
pub const MEMBER_NUMBERS: usize = 51;

/// The B line.
#[repr(C)]
#[derive(Clone, Copy, Debug, Default, PartialEq, Eq, Hash)]
pub struct Header {
    /// Knowledge level k, hundredths.
    pub knowledge: u64,
    /// H_T, mm.
    pub height: u64,
    /// n_s.
    pub storeys: u64,
    /// The two tilts, microradians.
    pub tilt1: u64,
    pub tilt2: u64,
    /// How many S lines follow.
    pub count: u64,
    /// [`OLD_FORM`] or [`FOUR_CASES`].
    pub form: u64,
}

/// The S line.
#[repr(C)]
#[derive(Clone, Copy, Debug, Default, PartialEq, Eq, Hash)]
pub struct Storey {
    pub number: u64,
    /// Storey shear of each case, 0.1 kN; 0 in cases that the form lacks.
    pub shears: [u64; CASES],
    /// How many M lines follow.
    pub count: u64,
}

/// The M line: a column or a wall. Forces are in 0.1 kN, moments in 0.1 kNm, lengths in mm.
#[repr(C)]
#[derive(Clone, Copy, Debug, Default, PartialEq, Eq, Hash)]
pub struct Member {
    pub number: u64,
    pub long: u64,
    pub short: u64,
    /// A_c, mm².
    pub area: u64,
    /// f_cm, 0.1 MPa.
    pub fcm: u64,
    /// f_ctm, 0.01 MPa.
    pub fctm: u64,
    /// f_yw, 0.1 MPa.
    pub fyw: u64,
    /// d.
    pub depth: u64,
    /// H_w, height of the wall.
    pub height: u64,
    /// s, hoop spacing.
    pub spacing: u64,
    /// b_k, core width.
    pub core: u64,
    /// A_sh, hoop area, mm².
    pub hoops: u64,
    /// Hooks of 135° at both ends, 0 or 1.
    pub hooks: u64,
    /// Boundary zone of a wall, 0 or 1.
    pub zone: u64,
    /// 0 or 1.
    pub strengthened: u64,
    /// Reduction factor, hundredths.
    pub factor: u64,
    /// Worst damage kind, 0 to 4.
    pub damage: u64,
    /// N_D, counted from -20,000,000 ([`force`], [`signed_force`]).
    pub nd: u64,
    /// Detailed to annex E, 0 or 1; only a strengthened wall reads it.
    pub annex_e: u64,
    /// The cases that the form lacks are [`LoadCase::NONE`].
    pub cases: [LoadCase; CASES],
}

/// What one load case brings to a member.
#[repr(C)]
#[derive(Clone, Copy, Debug, Default, PartialEq, Eq, Hash)]
pub struct LoadCase {
    /// N_K, counted from -20,000,000 ([`force`], [`signed_force`]).
    pub nk: u64,
    /// M_e, moment demand.
    pub me: u64,
    /// M_p, moment capacity.
    pub mp: u64,
    /// V_e, shear demand.
    pub ve: u64,
    /// V_r, shear capacity.
    pub vr: u64,
    /// V, shear from modal analysis.
    pub shear: u64,
    /// Microradians.
    pub rotation: u64,
    /// Millionths.
    pub drift: u64,
}

impl LoadCase {
    /// A case that the form lacks: all 0, N_K the force 0. A case of zeros is refused by 3.
    pub const NONE: LoadCase = LoadCase { nk: ZERO_FORCE, me: 0, mp: 0, ve: 0, vr: 0, shear: 0, rotation: 0, drift: 0 };
}

/// From a record to its numbers in the order of its fields, and back.
macro_rules! numbers {
    ($record:ty, $count:ident) => {
        impl From<$record> for [u64; $count] {
            fn from(record: $record) -> Self {
                // Sound: the record is so many u64, one after another.
                unsafe { std::mem::transmute(record) }
            }
        }

        impl From<[u64; $count]> for $record {
            fn from(numbers: [u64; $count]) -> Self {
                // Sound: the record is so many u64, one after another, and may hold any.
                unsafe { std::mem::transmute(numbers) }
            }
        }
    };
}

numbers!(Header, HEADER_NUMBERS);
numbers!(Storey, STOREY_NUMBERS);
numbers!(LoadCase, CASE_NUMBERS);
numbers!(Member, MEMBER_NUMBERS);

/// A survey that was read: its header and the rows filled, the members of all storeys in survey order.
#[derive(Clone, Copy, Debug, PartialEq, Eq)]
pub struct Survey<'a> {
    pub header: Header,
    pub storeys: &'a [Storey],
    pub members: &'a [Member],
}
