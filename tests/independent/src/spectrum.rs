//! Site coefficients and the spectrum: tables 2.1, 2.3 and 2.4 and equations
//! 2.2 to 2.4 of document 001, as request N8 of document 02 has them.
//!
//! Inside, accelerations are counted in g and periods in seconds, both exact.

use crate::fraction::Fraction;
use crate::records::Refusal;

// ---- codes ----

/// The site classes.
pub const ZA: u64 = 1;
pub const ZB: u64 = 2;
pub const ZC: u64 = 3;
pub const ZD: u64 = 4;
pub const ZE: u64 = 5;
pub const ZF: u64 = 6;

/// The uses of table 2.1 with DD-1.
pub const USE_1: u64 = 1;
/// The uses of table 2.1 with DD-2.
pub const USE_2: u64 = 2;

/// The map coefficients of one level of ground motion, hundredths.
#[derive(Clone, Copy, Debug, PartialEq, Eq, Hash)]
pub struct Motion {
    /// S_S
    pub ss: u64,
    /// S_1
    pub s1: u64,
}

#[derive(Clone, Copy, Debug, PartialEq, Eq)]
pub struct SiteFinding {
    /// Thousandths.
    pub f_s: u64,
    pub f_1: u64,
    /// Hundred-thousandths.
    pub s_ds: u64,
    pub s_d1: u64,
}

const COEFFICIENT_STEPS: i128 = 1_000;
const ACCELERATION_STEPS: i128 = 100_000;

// ---- tables 2.3 and 2.4 ----

const COLUMNS: usize = 6;

struct Table {
    /// The map coefficient of each column, hundredths.
    columns: [u64; COLUMNS],
    /// F in tenths: ZA to ZE.
    rows: [[i128; COLUMNS]; 5],
}

const TABLE_2_3: Table = Table {
    columns: [25, 50, 75, 100, 125, 150],
    rows: [
        [8, 8, 8, 8, 8, 8],
        [9, 9, 9, 9, 9, 9],
        [13, 13, 12, 12, 12, 12],
        [16, 14, 12, 11, 10, 10],
        [24, 17, 13, 11, 9, 8],
    ],
};

const TABLE_2_4: Table = Table {
    columns: [10, 20, 30, 40, 50, 60],
    rows: [
        [8, 8, 8, 8, 8, 8],
        [8, 8, 8, 8, 8, 8],
        [15, 15, 15, 15, 15, 14],
        [24, 22, 20, 19, 18, 17],
        [42, 33, 28, 24, 22, 20],
    ],
};

impl Table {
    /// ZF takes ZE.
    fn row(&self, class: u64) -> Option<[Fraction; COLUMNS]> {
        let row = match class {
            ZA => self.rows[0],
            ZB => self.rows[1],
            ZC => self.rows[2],
            ZD => self.rows[3],
            ZE | ZF => self.rows[4],
            _ => return None,
        };
        Some(row.map(|tenths| Fraction::new(tenths, 10)))
    }

    /// Linear between the columns; the end columns hold outside.
    fn coefficient(&self, class: u64, map: u64) -> Option<Fraction> {
        let f = self.row(class)?;
        if map <= self.columns[0] {
            return Some(f[0]);
        }
        for right in 1..COLUMNS {
            let left = right - 1;
            let (from, to) = (self.columns[left], self.columns[right]);
            if map <= to {
                let way = Fraction::new((map - from) as i128, (to - from) as i128);
                let rise = f[right].minus(f[left]);
                return Some(f[left].plus(rise.times(way)));
            }
        }
        Some(f[COLUMNS - 1])
    }
}

/// F_S by table 2.3 for S_S in hundredths, any number of them. None for a
/// class that is not listed.
pub fn coefficient_f_s(class: u64, ss: u64) -> Option<Fraction> {
    TABLE_2_3.coefficient(class, ss)
}

/// F_1 by table 2.4, likewise.
pub fn coefficient_f_1(class: u64, s1: u64) -> Option<Fraction> {
    TABLE_2_4.coefficient(class, s1)
}

/// F in thousandths: F_S from ZA to ZE, each at every hundredth of S_S from
/// 0.25 to 1.50, then F_1 from ZA to ZE, each at every hundredth of S_1 from
/// 0.10 to 0.60.
pub fn site_table() -> Vec<u64> {
    let mut numbers = Vec::new();
    for table in [&TABLE_2_3, &TABLE_2_4] {
        for class in [ZA, ZB, ZC, ZD, ZE] {
            for map in table.columns[0]..=table.columns[COLUMNS - 1] {
                let f = table.coefficient(class, map);
                numbers.extend(f.map(|f| counted_up(f, COEFFICIENT_STEPS)));
            }
        }
    }
    numbers
}

// ---- equations 2.2 to 2.4 ----

/// One level of ground motion at a site.
struct Ground {
    f_s: Fraction,
    f_1: Fraction,
    s_ds: Fraction,
    s_d1: Fraction,
}

impl Ground {
    /// Equation 2.2.
    fn at(class: u64, motion: Motion) -> Option<Ground> {
        let f_s = coefficient_f_s(class, motion.ss)?;
        let f_1 = coefficient_f_1(class, motion.s1)?;
        Some(Ground {
            f_s,
            f_1,
            s_ds: hundredths(motion.ss).times(f_s),
            s_d1: hundredths(motion.s1).times(f_1),
        })
    }

    /// Equations 2.3 and 2.4: the topmost line that fits.
    fn s_ae(&self, t: Fraction) -> Fraction {
        let t_b = self.s_d1.divided_by(self.s_ds);
        let t_a = Fraction::new(2, 10).times(t_b);
        let t_l = Fraction::whole(6);
        if at_most(t, t_a) {
            let part = Fraction::new(6, 10).times(t.divided_by(t_a));
            Fraction::new(4, 10).plus(part).times(self.s_ds)
        } else if at_most(t_a, t) && at_most(t, t_b) {
            self.s_ds
        } else if at_most(t_b, t) && at_most(t, t_l) {
            self.s_d1.divided_by(t)
        } else {
            self.s_d1.times(t_l).divided_by(t.times(t))
        }
    }
}

fn hundredths(value: u64) -> Fraction {
    Fraction::new(value as i128, 100)
}

fn at_most(a: Fraction, b: Fraction) -> bool {
    !a.exceeds(b)
}

fn counted_up(value: Fraction, steps: i128) -> u64 {
    value.times(Fraction::whole(steps)).rounded_up() as u64
}

// ---- the calls ----

/// 0.01 to 9.99.
fn map_in_range(motion: Motion) -> bool {
    let in_range = |coefficient| (1..=999).contains(&coefficient);
    in_range(motion.ss) && in_range(motion.s1)
}

/// Milliseconds.
fn period_in_range(period: u64) -> bool {
    period <= 99_999
}

fn refused<T>(number: u8) -> Result<T, Refusal> {
    Err(Refusal::of_record(number))
}

/// F_S, F_1, S_DS and S_D1 of one level. All four are whole on their grids.
pub fn site(class: u64, ss: u64, s1: u64) -> Result<SiteFinding, Refusal> {
    let motion = Motion { ss, s1 };
    if !map_in_range(motion) {
        return refused(14);
    }
    let Some(ground) = Ground::at(class, motion) else {
        return refused(3);
    };
    Ok(SiteFinding {
        f_s: counted_up(ground.f_s, COEFFICIENT_STEPS),
        f_1: counted_up(ground.f_1, COEFFICIENT_STEPS),
        s_ds: counted_up(ground.s_ds, ACCELERATION_STEPS),
        s_d1: counted_up(ground.s_d1, ACCELERATION_STEPS),
    })
}

/// The spectrum of the use at a period in milliseconds, hundred-thousandths.
pub fn spectrum(
    class: u64,
    usage: u64,
    dd1: Motion,
    dd2: Motion,
    period: u64,
) -> Result<u64, Refusal> {
    if !map_in_range(dd1) || !map_in_range(dd2) || !period_in_range(period) {
        return refused(14);
    }
    let (Some(first), Some(second)) = (Ground::at(class, dd1), Ground::at(class, dd2)) else {
        return refused(3);
    };
    let t = Fraction::new(period as i128, 1_000);
    let exact = match usage {
        USE_1 => of_use_1(&first, &second, t),
        USE_2 => second.s_ae(t).times(Fraction::new(9, 10)),
        _ => return refused(3),
    };
    Ok(counted_up(exact, ACCELERATION_STEPS))
}

/// DD-1, or 1.5 times DD-2 where 1.5 times its S_DS is the smaller.
fn of_use_1(dd1: &Ground, dd2: &Ground, t: Fraction) -> Fraction {
    let one_and_a_half = Fraction::new(15, 10);
    if dd1.s_ds.exceeds(dd2.s_ds.times(one_and_a_half)) {
        dd2.s_ae(t).times(one_and_a_half)
    } else {
        dd1.s_ae(t)
    }
}
