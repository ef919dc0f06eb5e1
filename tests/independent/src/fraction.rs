//! Exact fractions. The denominator is kept above zero and the terms lowest.

#[derive(Clone, Copy, Debug, PartialEq, Eq)]
pub struct Fraction {
    numerator: i128,
    denominator: i128,
}

fn greatest_common_divisor(a: i128, b: i128) -> i128 {
    let (mut a, mut b) = (a.abs(), b.abs());
    while b != 0 {
        (a, b) = (b, a % b);
    }
    a
}

impl Fraction {
    /// The denominator must be above zero.
    pub fn new(numerator: i128, denominator: i128) -> Fraction {
        assert!(denominator > 0);
        let g = greatest_common_divisor(numerator, denominator);
        Fraction {
            numerator: numerator / g,
            denominator: denominator / g,
        }
    }

    /// In lowest terms.
    pub fn numerator(self) -> i128 {
        self.numerator
    }

    /// In lowest terms, above zero.
    pub fn denominator(self) -> i128 {
        self.denominator
    }

    pub fn whole(value: i128) -> Fraction {
        Fraction::new(value, 1)
    }

    pub fn plus(self, other: Fraction) -> Fraction {
        Fraction::new(
            self.numerator * other.denominator + other.numerator * self.denominator,
            self.denominator * other.denominator,
        )
    }

    pub fn minus(self, other: Fraction) -> Fraction {
        self.plus(Fraction::new(-other.numerator, other.denominator))
    }

    pub fn times(self, other: Fraction) -> Fraction {
        Fraction::new(
            self.numerator * other.numerator,
            self.denominator * other.denominator,
        )
    }

    /// The other must be above zero.
    pub fn divided_by(self, other: Fraction) -> Fraction {
        Fraction::new(
            self.numerator * other.denominator,
            self.denominator * other.numerator,
        )
    }

    pub fn exceeds(self, other: Fraction) -> bool {
        self.minus(other).numerator > 0
    }

    pub fn rounded_down(self) -> i128 {
        self.numerator.div_euclid(self.denominator)
    }

    pub fn rounded_up(self) -> i128 {
        -(-self.numerator).div_euclid(self.denominator)
    }
}

#[cfg(test)]
mod tests {
    use super::Fraction;

    #[test]
    fn rounding() {
        assert_eq!(Fraction::new(7, 2).rounded_down(), 3);
        assert_eq!(Fraction::new(7, 2).rounded_up(), 4);
        assert_eq!(Fraction::new(8, 2).rounded_down(), 4);
        assert_eq!(Fraction::new(8, 2).rounded_up(), 4);
        assert_eq!(Fraction::new(-7, 2).rounded_down(), -4);
        assert_eq!(Fraction::new(-7, 2).rounded_up(), -3);
        assert_eq!(Fraction::new(0, 5), Fraction::whole(0));
    }

    #[test]
    fn arithmetic() {
        let half = Fraction::new(1, 2);
        let third = Fraction::new(1, 3);
        assert_eq!(half.plus(third), Fraction::new(5, 6));
        assert_eq!(half.minus(third), Fraction::new(1, 6));
        assert_eq!(half.times(third), Fraction::new(1, 6));
        assert_eq!(half.divided_by(third), Fraction::new(3, 2));
        assert_eq!(Fraction::whole(0).divided_by(half), Fraction::whole(0));
        assert!(half.exceeds(third));
        assert!(!half.exceeds(half));
        assert!(!third.exceeds(half));
    }
}
