//! The proved calls of Llunareth for programs in Rust: read a survey file, check a record, judge a member, a storey and a building, write the
//! report, write a survey as a file, find a site's coefficients and its spectrum. CALLS.md has the calls and their refusals, FORMAT.md
//! the survey file and its fields, SPECTRUM.md the codes and units of sites and spectra.
//!
//! No call relies on checks made before it: every file and record, good or bad, yields an answer or a refusal. Every call panics where the
//! linked library has another form of the calls than this package knows ([`raw::VERSION`]).
mod findings;
pub mod raw;
mod records;
mod spectrum;

pub use findings::{
    BuildingFinding, Cases, MemberFinding, Refusal, StoreyCaseFinding, StoreyFinding, CASE_MISNUMBERED, COLUMN_A, COLUMN_B, COLUMN_C,
    FILE_TOO_LONG, NOT_LOW_RISE, NUMBER_REPEATED, OUTSIDE_MAP, OUT_OF_RANGE, SHEET_TOO_LONG, SIDES_EXCHANGED, SPELLING, STRUCTURE, TOO_LARGE,
    TRAILING_BYTES, WALL_A, WALL_B,
};
pub use records::{
    force, signed_force, Header, LoadCase, Member, Storey, Survey, CASES, CASE_NUMBERS, FILE_MOST, FORCE_SCALE, FOUR_CASES, HEADER_NUMBERS,
    MEMBER_NUMBERS, MEMBER_ROWS, OLD_FORM, RATIO_SCALE, ROTATION_SCALE, SHEET_MOST, STOREY_NUMBERS, STOREY_ROWS, WRITE_MOST, ZERO_FORCE,
};
pub use spectrum::{
    site_coefficients, spectrum, Motion, SiteFinding, FACTOR_SCALE, MAP_SCALE, PERIOD_SCALE, SPECTRUM_SCALE, USE_DD1, USE_DD2, ZA, ZB, ZC, ZD, ZE, ZF,
};

/// The values that a call puts out.
fn values<const N: usize>(call: impl FnOnce(&mut [u64]) -> u64) -> Result<[u64; N], Refusal> {
    let mut out = [0; N];
    match call(&mut out) {
        0 => Ok(out),
        returned => Err(Refusal::unpacked(returned)),
    }
}

/// The front of a buffer that was filled so far.
fn front<T>(buffer: &[T], filled: u64) -> &[T] {
    &buffer[..buffer.len().min(filled as usize)]
}

fn checked(number: u64) -> Result<(), Refusal> {
    match number {
        0 => Ok(()),
        number => Err(Refusal { number, line: 0 }),
    }
}

/// Reads a survey file into the rows, from the front; the rows after those filled are left alone. Refused by 1 to 8 or 12 with the line:
/// all rows are left alone.
///
/// ```
/// use llunareth::{Member, Storey};
/// let file = std::fs::read("../../samples/worked-example.survey")?;
/// let (mut storeys, mut members) = ([Storey::default(); 10], [Member::default(); 320]);
/// let survey = llunareth::read(&file, &mut storeys, &mut members)?;
/// assert_eq!((survey.header.knowledge, survey.storeys.len(), survey.members.len()), (100, 1, 2));
/// let refusal = llunareth::read(&file[1..], &mut storeys, &mut members).unwrap_err();
/// assert_eq!((refusal.number, refusal.line), (1, 1));
/// # Ok::<(), Box<dyn std::error::Error>>(())
/// ```
pub fn read<'a>(file: &[u8], storeys: &'a mut [Storey], members: &'a mut [Member]) -> Result<Survey<'a>, Refusal> {
    let [header @ .., storey_rows, member_rows] = values::<{ raw::READ_VALUES }>(|out| raw::read(file, storeys, members, out))?;
    Ok(Survey { header: Header::from(header), storeys: front(storeys, storey_rows), members: front(members, member_rows) })
}

/// Checks a header by itself. Refused by 3 or 7.
///
/// ```
/// use llunareth::{header_fault, Header};
/// let header = Header { knowledge: 90, height: 9_000, storeys: 3, tilt1: 0, tilt2: 0, count: 1, form: 1 };
/// assert!(header_fault(&header).is_ok());
/// assert_eq!(header_fault(&Header { height: 30_001, ..header }).unwrap_err().number, 7);
/// ```
pub fn header_fault(header: &Header) -> Result<(), Refusal> {
    checked(raw::header_fault(&<[u64; HEADER_NUMBERS]>::from(*header)))
}

/// Checks the record of a storey of a form by itself. Refused by 3.
///
/// ```
/// use llunareth::{storey_fault, Storey, FOUR_CASES, OLD_FORM};
/// let storey = Storey { number: 1, shears: [1_000, 0, 0, 0], count: 200 };
/// assert!(storey_fault(OLD_FORM, &storey).is_ok());
/// assert_eq!(storey_fault(OLD_FORM, &Storey { count: 201, ..storey }).unwrap_err().number, 3);
/// assert_eq!(storey_fault(FOUR_CASES, &storey).unwrap_err().number, 3);
/// ```
pub fn storey_fault(form: u64, storey: &Storey) -> Result<(), Refusal> {
    checked(raw::storey_fault(form, &<[u64; STOREY_NUMBERS]>::from(*storey)))
}

/// Checks the record of a member of a form by itself. Refused by 3 or 4.
///
/// ```
/// use llunareth::{member_fault, LoadCase, Member, OLD_FORM};
/// # let file = std::fs::read("../../samples/worked-example.survey")?;
/// # let (mut storeys, mut members) = ([llunareth::Storey::default(); 10], [Member::default(); 320]);
/// let member = llunareth::read(&file, &mut storeys, &mut members)?.members[0];
/// assert!(member_fault(OLD_FORM, &member).is_ok());
/// assert_eq!(member_fault(OLD_FORM, &Member { short: 301, ..member }).unwrap_err().number, 4);
/// assert_eq!(member_fault(OLD_FORM, &Member { nd: 0, ..member }).unwrap_err().number, 3);
/// assert_eq!(member_fault(OLD_FORM, &Member { annex_e: 2, ..member }).unwrap_err().number, 3);
/// let zeros = Member { cases: [member.cases[0], LoadCase::default(), LoadCase::NONE, LoadCase::NONE], ..member };
/// assert_eq!(member_fault(OLD_FORM, &zeros).unwrap_err().number, 3);
/// # Ok::<(), Box<dyn std::error::Error>>(())
/// ```
pub fn member_fault(form: u64, member: &Member) -> Result<(), Refusal> {
    checked(raw::member_fault(form, &<[u64; MEMBER_NUMBERS]>::from(*member)))
}

/// Judges a member of a form with k and whether its storey meets the 0.40 condition in each case ([`StoreyCaseFinding::walls_suffice`]); those of
/// cases that the form lacks are not looked at. What is found in each case of the form. Refused by 3, first for k and the form, or 4.
///
/// ```
/// use llunareth::{judge_member, Member, OLD_FORM, RATIO_SCALE};
/// # let file = std::fs::read("../../samples/worked-example.survey")?;
/// # let (mut storeys, mut members) = ([llunareth::Storey::default(); 10], [Member::default(); 320]);
/// let member = llunareth::read(&file, &mut storeys, &mut members)?.members[0];
/// let found = judge_member(100, OLD_FORM, [false; 4], &member)?[0];
/// assert_eq!((found.class, found.m, found.m_limit, found.over), (2, 3 * RATIO_SCALE, 259_090, true));
/// assert_eq!((found.rotation, found.rotation_limit, found.nd), (9_000, 12_500, 35_000));
/// assert!(found.over_m && !found.over_rotation && !found.m_dropped);
/// assert_eq!(judge_member(95, OLD_FORM, [false; 4], &member).unwrap_err().number, 3);
/// # Ok::<(), Box<dyn std::error::Error>>(())
/// ```
pub fn judge_member(k: u64, form: u64, met: [bool; CASES], member: &Member) -> Result<Cases<MemberFinding>, Refusal> {
    let found = values::<{ raw::MEMBER_VALUES }>(|out| raw::judge_member(k, form, met, &<[u64; MEMBER_NUMBERS]>::from(*member), out))?;
    Ok(Cases::of(form, |c| {
        let at = |j: usize| found[raw::FINDING_VALUES * c + j];
        MemberFinding {
            class: at(0),
            m: at(1),
            m_limit: at(2),
            rotation: at(3),
            rotation_limit: at(4),
            over: at(5) == 1,
            nd: at(6),
            m_dropped: at(7) == 1,
            over_m: at(8) == 1,
            over_rotation: at(9) == 1,
        }
    }))
}

/// Judges a storey of a form with k and its members. Refused by 1 where its count is not that of the members; by 3, first for k and the form, 4
/// or 5.
///
/// ```
/// # let file = std::fs::read("../../samples/worked-example.survey")?;
/// # let (mut storeys, mut members) = ([llunareth::Storey::default(); 10], [llunareth::Member::default(); 320]);
/// let survey = llunareth::read(&file, &mut storeys, &mut members)?;
/// let found = llunareth::judge_storey(survey.header.knowledge, survey.header.form, &survey.storeys[0], survey.members)?;
/// let case = found.cases[0];
/// assert_eq!((case.axial_total, case.members, case.over_shear, case.shear), (75_000, 2, 200, 1_000));
/// assert!(found.risky && case.risky && case.by_share && !case.walls_suffice);
/// let refusal = llunareth::judge_storey(100, 1, &survey.storeys[0], &survey.members[..1]).unwrap_err();
/// assert_eq!(refusal.number, 1);
/// # Ok::<(), Box<dyn std::error::Error>>(())
/// ```
pub fn judge_storey(k: u64, form: u64, storey: &Storey, members: &[Member]) -> Result<StoreyFinding, Refusal> {
    let found = values::<{ raw::STOREY_VALUES }>(|out| raw::judge_storey(k, form, &<[u64; STOREY_NUMBERS]>::from(*storey), members, out))?;
    let cases = Cases::of(form, |c| {
        let at = |j: usize| found[1 + raw::STOREY_CASE_VALUES * c + j];
        StoreyCaseFinding {
            axial_total: at(0),
            members: at(1),
            over_shear: at(2),
            shear: at(3),
            risky: at(4) == 1,
            walls_suffice: at(5) == 1,
            by_share: at(6) == 1,
            by_one_over: at(7) == 1,
            by_damage: at(8) == 1,
            allowed_num: at(9),
            allowed_den: at(10),
        }
    });
    Ok(StoreyFinding { risky: found[0] == 1, cases })
}

/// Judges a building, given by its header, its storeys, and the members of all of them in survey order. Refused by 1 where a count is not that
/// of the rows; by 3, 4, 5 or 7.
///
/// ```
/// # let file = std::fs::read("../../samples/plain-block.survey")?;
/// # let (mut storeys, mut members) = ([llunareth::Storey::default(); 10], [llunareth::Member::default(); 320]);
/// let survey = llunareth::read(&file, &mut storeys, &mut members)?;
/// let found = llunareth::judge_building(&survey.header, survey.storeys, survey.members)?;
/// assert_eq!((found.tilted, found.risky, found.place, found.case), (false, true, 1, 1));
/// # Ok::<(), Box<dyn std::error::Error>>(())
/// ```
pub fn judge_building(header: &Header, storeys: &[Storey], members: &[Member]) -> Result<BuildingFinding, Refusal> {
    let [tilted, risky, place, case] =
        values::<{ raw::BUILDING_VALUES }>(|out| raw::judge_building(&<[u64; HEADER_NUMBERS]>::from(*header), storeys, members, out))?;
    Ok(BuildingFinding { tilted: tilted == 1, risky: risky == 1, place, case })
}

/// Writes the sheet of a building, given as for its judgment, to the front of the bytes; those after it are left alone. It has 86 bytes for
/// each member, 74 for each storey and 26 for the building; in four cases 98 for each member and 86 for each storey in each case. Refused as the
/// judgment is, then by 9 where the sheet does not fit: all bytes are left alone.
///
/// ```
/// # let file = std::fs::read("../../samples/worked-example.survey")?;
/// # let (mut storeys, mut members) = ([llunareth::Storey::default(); 10], [llunareth::Member::default(); 320]);
/// let survey = llunareth::read(&file, &mut storeys, &mut members)?;
/// let mut bytes = [0; 272];
/// let sheet = llunareth::report(&survey.header, survey.storeys, survey.members, &mut bytes)?;
/// assert!(sheet.ends_with(b"\nB           0           1\n"));
/// let refusal = llunareth::report(&survey.header, survey.storeys, survey.members, &mut bytes[1..]).unwrap_err();
/// assert_eq!(refusal.number, 9);
/// # Ok::<(), Box<dyn std::error::Error>>(())
/// ```
pub fn report<'a>(header: &Header, storeys: &[Storey], members: &[Member], sheet: &'a mut [u8]) -> Result<&'a [u8], Refusal> {
    let [length] = values::<{ raw::REPORT_VALUES }>(|out| raw::report(&<[u64; HEADER_NUMBERS]>::from(*header), storeys, members, sheet, out))?;
    Ok(front(sheet, length))
}

/// Writes a survey, given as for its judgment, as a file to the front of the bytes; those after it are left alone. It has 50 bytes, 26 for each
/// storey and 218 for each member, in four cases 50 and 450, at most [`WRITE_MOST`]. Read back into rows that hold it, it gives the same records.
/// Refused as the judgment is, then by 11 where the file does not fit: all bytes are left alone.
///
/// ```
/// let file = std::fs::read("../../samples/worked-example.survey")?;
/// # let (mut storeys, mut members) = ([llunareth::Storey::default(); 10], [llunareth::Member::default(); 320]);
/// let survey = llunareth::read(&file, &mut storeys, &mut members)?;
/// let mut bytes = [0; 1_000];
/// assert_eq!(llunareth::write(&survey.header, survey.storeys, survey.members, &mut bytes)?, file);
/// let refusal = llunareth::write(&survey.header, survey.storeys, survey.members, &mut bytes[..file.len() - 1]).unwrap_err();
/// assert_eq!(refusal.number, 11);
/// # Ok::<(), Box<dyn std::error::Error>>(())
/// ```
pub fn write<'a>(header: &Header, storeys: &[Storey], members: &[Member], file: &'a mut [u8]) -> Result<&'a [u8], Refusal> {
    let [length] = values::<{ raw::WRITE_VALUES }>(|out| raw::write(&<[u64; HEADER_NUMBERS]>::from(*header), storeys, members, file, out))?;
    Ok(front(file, length))
}

/// What the program `determine` prints for a file, put to the front of the bytes; those after it are left alone. There is no refusal: the
/// text is the answer, the sheet or the line `E` (26 bytes) with refusal and line, 8 and 0 where the file is longer than [`FILE_MOST`], 9 and 0
/// where the sheet does not fit. Where the line `E` does not fit, it is empty and all bytes are left alone. [`SHEET_MOST`] bytes hold every sheet.
///
/// ```
/// let file = std::fs::read("../../samples/worked-example.survey")?;
/// let mut bytes = [0; llunareth::SHEET_MOST];
/// assert_eq!(llunareth::determine(&file, &mut bytes), std::fs::read("../../samples/worked-example.sheet")?);
/// assert_eq!(llunareth::determine(&file, &mut bytes[..26]), b"E           9           0\n");
/// assert_eq!(llunareth::determine(&file, &mut bytes[..25]), b"");
/// assert_eq!(llunareth::determine(&[b' '; llunareth::FILE_MOST], &mut bytes), b"E           1           1\n");
/// assert_eq!(llunareth::determine(&[b' '; llunareth::FILE_MOST + 1], &mut bytes), b"E           8           0\n");
/// # Ok::<(), std::io::Error>(())
/// ```
pub fn determine<'a>(file: &[u8], text: &'a mut [u8]) -> &'a [u8] {
    let length = raw::determine(file, text);
    front(text, length as u64)
}
