//! Exact fractions: `i128` while it fits, whole numbers of any size beyond.

use crate::big::Big;
use std::cmp::Ordering;
use std::fmt;
use std::ops::{Add, Mul, Neg, Sub};

/// An exact fraction with a denominator above 0, not necessarily reduced.
/// Comparisons are by value.
#[derive(Clone, Debug)]
pub struct Fraction(Form);

#[derive(Clone, Debug)]
enum Form {
    Small(i128, i128),
    Large(Big, Big),
}

impl Fraction {
    /// The fraction 0.
    pub fn zero() -> Fraction {
        Fraction(Form::Small(0, 1))
    }

    /// `num / den`; `None` if `den` is 0.
    pub fn new(num: i128, den: i128) -> Option<Fraction> {
        match den.cmp(&0) {
            Ordering::Equal => None,
            Ordering::Greater => Some(Fraction(Form::Small(num, den))),
            Ordering::Less => match (num.checked_neg(), den.checked_neg()) {
                (Some(num), Some(den)) => Some(Fraction(Form::Small(num, den))),
                _ => Fraction::from_big(Big::from(num), Big::from(den)),
            },
        }
    }

    /// `num / den`; `None` if `den` is 0.
    pub fn from_big(num: Big, den: Big) -> Option<Fraction> {
        if den.is_zero() {
            None
        } else if den.is_negative() {
            Some(Fraction::fit(-&num, -&den))
        } else {
            Some(Fraction::fit(num, den))
        }
    }

    /// Chooses the small form where it fits; `den` is above 0.
    fn fit(num: Big, den: Big) -> Fraction {
        match (num.to_i128(), den.to_i128()) {
            (Some(num), Some(den)) => Fraction(Form::Small(num, den)),
            _ => Fraction(Form::Large(num, den)),
        }
    }

    /// The numerator of the form held.
    pub fn num(&self) -> Big {
        match &self.0 {
            Form::Small(num, _) => Big::from(*num),
            Form::Large(num, _) => num.clone(),
        }
    }

    /// The denominator of the form held, above 0.
    pub fn den(&self) -> Big {
        match &self.0 {
            Form::Small(_, den) => Big::from(*den),
            Form::Large(_, den) => den.clone(),
        }
    }

    /// The same value in lowest terms.
    pub fn reduced(&self) -> Fraction {
        if let Form::Small(num, den) = self.0 {
            let (num, den) = reduce((num, den));
            return Fraction(Form::Small(num, den));
        }
        let (num, den) = (self.num(), self.den());
        let common = num.gcd(&den);
        match (num.floor_div(&common), den.floor_div(&common)) {
            (Some(num), Some(den)) => Fraction::fit(num, den),
            _ => self.clone(),
        }
    }

    /// Whether the value is below 0.
    pub fn is_negative(&self) -> bool {
        match &self.0 {
            Form::Small(num, _) => *num < 0,
            Form::Large(num, _) => num.is_negative(),
        }
    }

    /// The size of the value.
    pub fn abs(&self) -> Fraction {
        if self.is_negative() {
            -self
        } else {
            self.clone()
        }
    }

    /// The quotient; `None` if `other` is 0.
    pub fn checked_div(&self, other: &Fraction) -> Option<Fraction> {
        let upside_down = match &other.0 {
            Form::Small(num, den) => Fraction::new(*den, *num),
            Form::Large(num, den) => Fraction::from_big(den.clone(), num.clone()),
        };
        upside_down.map(|inverse| self * &inverse)
    }

    /// The greatest whole number not above the value.
    pub fn floor(&self) -> Big {
        match &self.0 {
            Form::Small(num, den) => Big::from(num.div_euclid(*den)),
            Form::Large(num, den) => num.floor_div(den).unwrap_or_else(Big::zero),
        }
    }

    /// The least whole number not below the value.
    pub fn ceil(&self) -> Big {
        match &self.0 {
            Form::Small(num, den) => {
                let up = i128::from(num.rem_euclid(*den) != 0);
                Big::from(num.div_euclid(*den) + up)
            }
            Form::Large(num, den) => num.ceil_div(den).unwrap_or_else(Big::zero),
        }
    }
}

impl From<i64> for Fraction {
    fn from(value: i64) -> Fraction {
        Fraction(Form::Small(i128::from(value), 1))
    }
}

/// Numerator and denominator of a small form in lowest terms.
fn reduce((num, den): (i128, i128)) -> (i128, i128) {
    let mut a = num.unsigned_abs();
    let mut b = den.unsigned_abs();
    while b != 0 {
        (a, b) = (b, a % b);
    }
    match i128::try_from(a) {
        Ok(common) if common > 1 => (num / common, den / common),
        _ => (num, den),
    }
}

fn small_add(a: (i128, i128), b: (i128, i128)) -> Option<Fraction> {
    if a.1 == b.1 {
        let num = a.0.checked_add(b.0)?;
        return Some(Fraction(Form::Small(num, a.1)));
    }
    let left = a.0.checked_mul(b.1)?;
    let right = b.0.checked_mul(a.1)?;
    let num = left.checked_add(right)?;
    Some(Fraction(Form::Small(num, a.1.checked_mul(b.1)?)))
}

fn small_mul(a: (i128, i128), b: (i128, i128)) -> Option<Fraction> {
    let num = a.0.checked_mul(b.0)?;
    Some(Fraction(Form::Small(num, a.1.checked_mul(b.1)?)))
}

impl Neg for &Fraction {
    type Output = Fraction;
    fn neg(self) -> Fraction {
        if let Form::Small(num, den) = self.0 {
            if let Some(num) = num.checked_neg() {
                return Fraction(Form::Small(num, den));
            }
        }
        Fraction::fit(-&self.num(), self.den())
    }
}

impl Add for &Fraction {
    type Output = Fraction;
    fn add(self, other: &Fraction) -> Fraction {
        if let (Form::Small(an, ad), Form::Small(bn, bd)) = (&self.0, &other.0) {
            let (a, b) = ((*an, *ad), (*bn, *bd));
            let sum = small_add(a, b).or_else(|| small_add(reduce(a), reduce(b)));
            if let Some(sum) = sum {
                return sum;
            }
        }
        let (ad, bd) = (self.den(), other.den());
        if ad == bd {
            return Fraction::fit(&self.num() + &other.num(), ad);
        }
        let num = &(&self.num() * &bd) + &(&other.num() * &ad);
        Fraction::fit(num, &ad * &bd)
    }
}

impl Sub for &Fraction {
    type Output = Fraction;
    fn sub(self, other: &Fraction) -> Fraction {
        self + &-other
    }
}

impl Mul for &Fraction {
    type Output = Fraction;
    fn mul(self, other: &Fraction) -> Fraction {
        if let (Form::Small(an, ad), Form::Small(bn, bd)) = (&self.0, &other.0) {
            let (a, b) = ((*an, *ad), (*bn, *bd));
            let product = small_mul(a, b).or_else(|| small_mul(reduce(a), reduce(b)));
            if let Some(product) = product {
                return product;
            }
        }
        Fraction::fit(&self.num() * &other.num(), &self.den() * &other.den())
    }
}

impl Ord for Fraction {
    fn cmp(&self, other: &Fraction) -> Ordering {
        if let (Form::Small(an, ad), Form::Small(bn, bd)) = (&self.0, &other.0) {
            if let (Some(left), Some(right)) = (an.checked_mul(*bd), bn.checked_mul(*ad)) {
                return left.cmp(&right);
            }
        }
        let left = &self.num() * &other.den();
        let right = &other.num() * &self.den();
        left.cmp(&right)
    }
}

impl PartialOrd for Fraction {
    fn partial_cmp(&self, other: &Fraction) -> Option<Ordering> {
        Some(self.cmp(other))
    }
}

impl PartialEq for Fraction {
    fn eq(&self, other: &Fraction) -> bool {
        self.cmp(other) == Ordering::Equal
    }
}

impl Eq for Fraction {}

impl fmt::Display for Fraction {
    fn fmt(&self, f: &mut fmt::Formatter<'_>) -> fmt::Result {
        let lowest = self.reduced();
        if lowest.den() == Big::from(1) {
            write!(f, "{}", lowest.num())
        } else {
            write!(f, "{}/{}", lowest.num(), lowest.den())
        }
    }
}
