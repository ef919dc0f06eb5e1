//! Site coefficients and the spectrum. SPECTRUM.md has the codes of site classes and uses, and the units.
use crate::{raw, values, Refusal};

/// A map coefficient S_S or S_1 divided by this is the coefficient itself.
pub const MAP_SCALE: u64 = 100;

/// F_S or F_1 divided by this is the coefficient itself.
pub const FACTOR_SCALE: u64 = 1_000;

/// S_DS, S_D1 or a spectrum divided by this is in g.
pub const SPECTRUM_SCALE: u64 = 100_000;

/// A period divided by this is in seconds.
pub const PERIOD_SCALE: u64 = 1_000;

/// The site classes.
pub const ZA: u64 = 1;
pub const ZB: u64 = 2;
pub const ZC: u64 = 3;
pub const ZD: u64 = 4;
pub const ZE: u64 = 5;
pub const ZF: u64 = 6;

/// The uses of a building: group 1 of table 2.1, of DD-1, and group 2, of DD-2.
pub const USE_DD1: u64 = 1;
pub const USE_DD2: u64 = 2;

/// The map coefficients of a level of ground motion, hundredths.
#[derive(Clone, Copy, Debug, PartialEq, Eq, Hash)]
pub struct Motion {
    pub ss: u64,
    pub s1: u64,
}

/// The coefficients of a site: F_S and F_1 in thousandths, S_DS and S_D1 in hundred-thousandths.
#[derive(Clone, Copy, Debug, PartialEq, Eq, Hash)]
pub struct SiteFinding {
    pub fs: u64,
    pub f1: u64,
    pub sds: u64,
    pub sd1: u64,
}

/// The coefficients of a site: its class, [`ZA`] to [`ZF`], and its map coefficients in hundredths. Refused by 14, then 3.
///
/// ```
/// use llunareth::{site_coefficients, ZD};
/// let site = site_coefficients(ZD, 80, 35)?;
/// assert_eq!((site.fs, site.f1, site.sds, site.sd1), (1_180, 1_950, 94_400, 68_250));
/// assert_eq!(site_coefficients(7, 0, 35).unwrap_err().number, 14);
/// assert_eq!(site_coefficients(7, 80, 35).unwrap_err().number, 3);
/// # Ok::<(), llunareth::Refusal>(())
/// ```
pub fn site_coefficients(class: u64, ss: u64, s1: u64) -> Result<SiteFinding, Refusal> {
    let [fs, f1, sds, sd1] = values::<{ raw::SITE_VALUES }>(|out| raw::site_coefficients(class, ss, s1, out))?;
    Ok(SiteFinding { fs, f1, sds, sd1 })
}

/// The spectrum in hundred-thousandths at a period in milliseconds: of a site class, a use ([`USE_DD1`] or [`USE_DD2`]) and the map coefficients of
/// both levels. Refused by 14, then 3.
///
/// ```
/// use llunareth::{spectrum, Motion, USE_DD1, USE_DD2, ZD};
/// let (dd1, dd2) = (Motion { ss: 150, s1: 45 }, Motion { ss: 80, s1: 25 });
/// assert_eq!(spectrum(ZD, USE_DD2, dd1, dd2, 300)?, 84_960);
/// assert_eq!(spectrum(ZD, USE_DD1, dd1, dd2, 300)?, 141_600);
/// assert_eq!(spectrum(ZD, 3, dd1, dd2, 100_000).unwrap_err().number, 14);
/// # Ok::<(), llunareth::Refusal>(())
/// ```
pub fn spectrum(class: u64, usage: u64, dd1: Motion, dd2: Motion, period: u64) -> Result<u64, Refusal> {
    let [value] = values::<{ raw::SPECTRUM_VALUES }>(|out| raw::spectrum(class, usage, dd1, dd2, period, out))?;
    Ok(value)
}
