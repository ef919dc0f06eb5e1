//! The calls on a site and on a spectrum by both programs.
use crate::{assert_out_left, refusal};
use independent::{Motion, Refusal, SiteFinding};
use llunareth::raw;

fn motion(m: Motion) -> llunareth::Motion {
    llunareth::Motion { ss: m.ss, s1: m.s1 }
}

/// The proved call on a site.
pub fn site(class: u64, ss: u64, s1: u64) -> Result<SiteFinding, Refusal> {
    assert_out_left(raw::SITE_VALUES, |out| raw::site_coefficients(class, ss, s1, out));
    let f = llunareth::site_coefficients(class, ss, s1).map_err(refusal)?;
    Ok(SiteFinding { f_s: f.fs, f_1: f.f1, s_ds: f.sds, s_d1: f.sd1 })
}

/// The proved call on a spectrum.
pub fn spectrum(class: u64, usage: u64, dd1: Motion, dd2: Motion, period: u64) -> Result<u64, Refusal> {
    let (first, second) = (motion(dd1), motion(dd2));
    assert_out_left(raw::SPECTRUM_VALUES, |out| raw::spectrum(class, usage, first, second, period, out));
    llunareth::spectrum(class, usage, first, second, period).map_err(refusal)
}

/// A site by both programs; panics where they differ.
pub fn same_site(class: u64, ss: u64, s1: u64) -> Result<SiteFinding, Refusal> {
    let expected = independent::site(class, ss, s1);
    assert_eq!(site(class, ss, s1), expected, "class {class}, S_S {ss}, S_1 {s1}");
    expected
}

/// A spectrum by both programs; panics where they differ.
pub fn same_spectrum(class: u64, usage: u64, dd1: Motion, dd2: Motion, period: u64) -> Result<u64, Refusal> {
    let expected = independent::spectrum(class, usage, dd1, dd2, period);
    assert_eq!(spectrum(class, usage, dd1, dd2, period), expected, "class {class}, use {usage}, {dd1:?}, {dd2:?}, {period} ms");
    expected
}
