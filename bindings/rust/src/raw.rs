//! The calls as the proved library has them: slices of any length in, and numbers out, as in `llunareth.h`. A record handed in as numbers has
//! them in the order of its struct; one that lacks a number is refused by 3, by 1 where its rows are handed over and its count is lacking.
//!
//! A call with an `out` returns refusal and line in one number ([`LINE_UNIT`]), 0 where it is accepted. Accepted, it puts its values, and only
//! these, to the front of `out`. Refused, it leaves everything that was lent as it was. Where `out` is too short for its values, it returns
//! [`SHORT`] before anything else, and leaves everything as it was too.
//!
//! Each call panics where the linked library has another form of the calls than [`VERSION`].
use crate::{Member, Motion, Storey};
use std::sync::OnceLock;

/// The form of the calls that this package knows.
pub const VERSION: u64 = 8;

/// Returned where `out` is too short for a call's values; no refusal has this number.
pub const SHORT: u64 = 255;

/// What a call returns is the refusal and this many times its line.
pub const LINE_UNIT: u64 = 256;

/// How many values [`read`] puts out.
pub const READ_VALUES: usize = 9;

/// How many values [`judge_member`] puts out for each case of the form.
pub const FINDING_VALUES: usize = 10;

/// How many values [`judge_member`] may put out: those of four cases.
pub const MEMBER_VALUES: usize = 40;

/// How many values [`judge_storey`] puts out for each case of the form, after the first.
pub const STOREY_CASE_VALUES: usize = 11;

/// How many values [`judge_storey`] may put out: those of four cases.
pub const STOREY_VALUES: usize = 45;

/// How many values [`judge_building`] puts out.
pub const BUILDING_VALUES: usize = 4;

/// How many values [`report`] puts out.
pub const REPORT_VALUES: usize = 1;

/// How many values [`write()`] puts out.
pub const WRITE_VALUES: usize = 1;

/// How many values [`site_coefficients`] puts out.
pub const SITE_VALUES: usize = 4;

/// How many values [`spectrum`] puts out.
pub const SPECTRUM_VALUES: usize = 1;

extern "C" {
    fn llunareth_version() -> u64;
    fn llunareth_read(
        file: *const u8,
        file_len: usize,
        storeys: *mut Storey,
        storeys_len: usize,
        members: *mut Member,
        members_len: usize,
        out: *mut u64,
        out_len: usize,
    ) -> u64;
    fn llunareth_header_fault(values: *const u64, values_len: usize) -> u64;
    fn llunareth_storey_fault(form: u64, values: *const u64, values_len: usize) -> u64;
    fn llunareth_member_fault(form: u64, values: *const u64, values_len: usize) -> u64;
    fn llunareth_judge_member(
        k: u64,
        form: u64,
        met1: bool,
        met2: bool,
        met3: bool,
        met4: bool,
        values: *const u64,
        values_len: usize,
        out: *mut u64,
        out_len: usize,
    ) -> u64;
    fn llunareth_judge_storey(
        k: u64,
        form: u64,
        storey: *const u64,
        storey_len: usize,
        members: *const Member,
        members_len: usize,
        out: *mut u64,
        out_len: usize,
    ) -> u64;
    fn llunareth_judge_building(
        header: *const u64,
        header_len: usize,
        storeys: *const Storey,
        storeys_len: usize,
        members: *const Member,
        members_len: usize,
        out: *mut u64,
        out_len: usize,
    ) -> u64;
    fn llunareth_report(
        header: *const u64,
        header_len: usize,
        storeys: *const Storey,
        storeys_len: usize,
        members: *const Member,
        members_len: usize,
        sheet: *mut u8,
        sheet_len: usize,
        out: *mut u64,
        out_len: usize,
    ) -> u64;
    fn llunareth_write(
        header: *const u64,
        header_len: usize,
        storeys: *const Storey,
        storeys_len: usize,
        members: *const Member,
        members_len: usize,
        file: *mut u8,
        file_len: usize,
        out: *mut u64,
        out_len: usize,
    ) -> u64;
    fn llunareth_determine(file: *const u8, file_len: usize, text: *mut u8, text_len: usize) -> usize;
    fn llunareth_site_coefficients(class: u64, ss: u64, s1: u64, out: *mut u64, out_len: usize) -> u64;
    fn llunareth_spectrum(
        class: u64,
        usage: u64,
        dd1_ss: u64,
        dd1_s1: u64,
        dd2_ss: u64,
        dd2_s1: u64,
        period: u64,
        out: *mut u64,
        out_len: usize,
    ) -> u64;
}

/// The form of the calls that the linked library has.
pub fn version() -> u64 {
    unsafe { llunareth_version() }
}

/// Panics where a library has another form of the calls than this package knows.
fn expect(version: u64) {
    assert!(version == VERSION, "the linked library has version {version} of the calls, this package version {VERSION}");
}

/// Looks at the linked library's version before the first call.
fn expect_version() {
    static LOOKED_AT: OnceLock<()> = OnceLock::new();
    LOOKED_AT.get_or_init(|| expect(version()));
}

// Each call below is sound for every slice: it is handed a slice's own pointer and length, and stays within them.

/// Reads a file into the rows. Values: the header's seven numbers, the storey rows and the member rows filled.
pub fn read(file: &[u8], storeys: &mut [Storey], members: &mut [Member], out: &mut [u64]) -> u64 {
    expect_version();
    unsafe {
        llunareth_read(
            file.as_ptr(),
            file.len(),
            storeys.as_mut_ptr(),
            storeys.len(),
            members.as_mut_ptr(),
            members.len(),
            out.as_mut_ptr(),
            out.len(),
        )
    }
}

/// The number of a header's refusal, 0 for none.
pub fn header_fault(values: &[u64]) -> u64 {
    expect_version();
    unsafe { llunareth_header_fault(values.as_ptr(), values.len()) }
}

/// The number of the refusal of a storey of a form, 0 for none.
pub fn storey_fault(form: u64, values: &[u64]) -> u64 {
    expect_version();
    unsafe { llunareth_storey_fault(form, values.as_ptr(), values.len()) }
}

/// The number of the refusal of a member of a form, 0 for none.
pub fn member_fault(form: u64, values: &[u64]) -> u64 {
    expect_version();
    unsafe { llunareth_member_fault(form, values.as_ptr(), values.len()) }
}

/// Judges a member of a form, with the 0.40 condition by case. Values, for each case of the form: class, m, its limit, rotation, its limit, over,
/// n_D, whether the m test is dropped, over by m, over by the rotation.
pub fn judge_member(k: u64, form: u64, met: [bool; 4], values: &[u64], out: &mut [u64]) -> u64 {
    expect_version();
    unsafe {
        llunareth_judge_member(
            k,
            form,
            met[0],
            met[1],
            met[2],
            met[3],
            values.as_ptr(),
            values.len(),
            out.as_mut_ptr(),
            out.len(),
        )
    }
}

/// Judges a storey of a form. Values: Risky in some case; then for each case of the form Σ, c, P, W, Risky, whether the 0.40 condition is met, by
/// which of the three rules it is Risky, the allowed share's two numbers.
pub fn judge_storey(k: u64, form: u64, storey: &[u64], members: &[Member], out: &mut [u64]) -> u64 {
    expect_version();
    unsafe {
        llunareth_judge_storey(k, form, storey.as_ptr(), storey.len(), members.as_ptr(), members.len(), out.as_mut_ptr(), out.len())
    }
}

/// Judges a building. Values: tilt above 25,000, Risky, the first Risky storey's place and its lowest numbered Risky case, or 0 and 0.
pub fn judge_building(header: &[u64], storeys: &[Storey], members: &[Member], out: &mut [u64]) -> u64 {
    expect_version();
    unsafe {
        llunareth_judge_building(
            header.as_ptr(),
            header.len(),
            storeys.as_ptr(),
            storeys.len(),
            members.as_ptr(),
            members.len(),
            out.as_mut_ptr(),
            out.len(),
        )
    }
}

/// Writes the sheet of a building to the front of `sheet`. Values: the sheet's length.
pub fn report(header: &[u64], storeys: &[Storey], members: &[Member], sheet: &mut [u8], out: &mut [u64]) -> u64 {
    expect_version();
    unsafe {
        llunareth_report(
            header.as_ptr(),
            header.len(),
            storeys.as_ptr(),
            storeys.len(),
            members.as_ptr(),
            members.len(),
            sheet.as_mut_ptr(),
            sheet.len(),
            out.as_mut_ptr(),
            out.len(),
        )
    }
}

/// Writes a survey as a file to the front of `file`. Values: the file's length.
pub fn write(header: &[u64], storeys: &[Storey], members: &[Member], file: &mut [u8], out: &mut [u64]) -> u64 {
    expect_version();
    unsafe {
        llunareth_write(
            header.as_ptr(),
            header.len(),
            storeys.as_ptr(),
            storeys.len(),
            members.as_ptr(),
            members.len(),
            file.as_mut_ptr(),
            file.len(),
            out.as_mut_ptr(),
            out.len(),
        )
    }
}

/// Puts what `determine` prints for a file to the front of `text`; how many bytes, 0 where it does not fit. It has no refusal: the text is the
/// answer.
pub fn determine(file: &[u8], text: &mut [u8]) -> usize {
    expect_version();
    unsafe { llunareth_determine(file.as_ptr(), file.len(), text.as_mut_ptr(), text.len()) }
}

/// The coefficients of a site. Values: F_S, F_1, S_DS, S_D1.
pub fn site_coefficients(class: u64, ss: u64, s1: u64, out: &mut [u64]) -> u64 {
    expect_version();
    unsafe { llunareth_site_coefficients(class, ss, s1, out.as_mut_ptr(), out.len()) }
}

/// The spectrum of a site, a use and both levels' map coefficients at a period. Values: the spectrum.
pub fn spectrum(class: u64, usage: u64, dd1: Motion, dd2: Motion, period: u64, out: &mut [u64]) -> u64 {
    expect_version();
    unsafe { llunareth_spectrum(class, usage, dd1.ss, dd1.s1, dd2.ss, dd2.s1, period, out.as_mut_ptr(), out.len()) }
}

#[cfg(test)]
mod tests {
    use super::{expect, version, VERSION};

    #[test]
    fn the_version_of_the_library() {
        assert_eq!(version(), VERSION);
    }

    #[test]
    #[should_panic(expected = "the linked library has version 9 of the calls, this package version 8")]
    fn another_version() {
        expect(9);
    }
}
