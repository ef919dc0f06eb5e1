//! Drawn members about the rows of the tables.

use super::member;
use independent::lines::{cases_of, CASES};
use independent::{LoadCase, Member};

/// Numbers drawn from a fixed start.
pub struct Draw(pub u64);

impl Draw {
    pub fn below(&mut self, bound: u64) -> u64 {
        self.0 ^= self.0 << 13;
        self.0 ^= self.0 >> 7;
        self.0 ^= self.0 << 17;
        self.0 % bound
    }

    pub fn within(&mut self, least: u64, most: u64) -> u64 {
        least + self.below(most - least + 1)
    }

    pub fn yes(&mut self, one_in: u64) -> u64 {
        (self.below(one_in) == 0) as u64
    }

    /// Mostly nothing or little, so that many pairs differ by few steps.
    pub fn step(&mut self, most: u64) -> u64 {
        match self.below(4) {
            0 => self.within(0, most),
            1 => self.within(0, 3),
            _ => 0,
        }
    }

    /// A force whose ratio to f_cm x A_c lies about the rows, or past a cap.
    fn axial(&mut self, strength_of_section: u64) -> i64 {
        if self.yes(20) == 1 {
            return self.within(0, 10_999_998) as i64 - 999_999;
        }
        let ratio = self.within(0, 80_000);
        (ratio * strength_of_section / 100_000_000) as i64 - self.below(3) as i64
    }

    fn load(&mut self, strength_of_section: u64) -> LoadCase {
        let m_p = self.within(1, 100_000);
        let v_r = self.within(100, 4_000);
        LoadCase {
            n_k: self.axial(strength_of_section),
            m_e: self.within(0, 3 * m_p),
            m_p,
            v_e: self.within(0, 11 * v_r / 10),
            v_r,
            v: self.within(0, 300),
            rotation: self.within(0, 15_000),
            drift: self.within(5_000, 9_000),
        }
    }

    /// A member with the cases of the form.
    pub fn member(&mut self, form: u64, number: u64) -> Member {
        let wall = self.yes(3) == 1;
        let f_cm = self.within(60, 300);
        let a_c = self.within(60_000, 3_000_000);
        let mut cases = [LoadCase::default(); CASES];
        for load in &mut cases[..cases_of(form)] {
            *load = self.load(f_cm * a_c);
        }
        Member {
            number,
            long_side: if wall { 1_200 } else { 400 },
            short_side: 200,
            a_c,
            f_cm,
            f_ctm: self.within(80, 150),
            d: self.within(700, 1_200),
            h_w: self.within(2_000, 4_000),
            s: self.within(80, 120),
            b_k: self.within(200, 400),
            a_sh: self.within(0, 300),
            hooks: self.yes(2),
            boundary_zone: self.yes(2),
            strengthened: self.yes(3),
            factor: 100 - self.step(50),
            damage_kind: self.yes(20) * self.within(1, 4),
            n_d: self.axial(f_cm * a_c),
            annex_e: self.yes(2),
            cases,
            ..member().record()
        }
    }

    /// A storey shear for each case of the form.
    pub fn shears(&mut self, form: u64) -> [u64; CASES] {
        let mut shears = [0; CASES];
        for shear in &mut shears[..cases_of(form)] {
            *shear = self.within(500, 3_000);
        }
        shears
    }
}
