//! Signed whole numbers of any size: a sign and 32-bit limbs, lowest first.

use std::cmp::Ordering;
use std::fmt;
use std::ops::{Add, Mul, Neg, Sub};

/// A whole number. The highest limb is never zero, and zero is not negative.
#[derive(Clone, Debug, PartialEq, Eq, Hash)]
pub struct Big {
    negative: bool,
    limbs: Vec<u32>,
}

impl Big {
    /// The number 0.
    pub fn zero() -> Big {
        Big {
            negative: false,
            limbs: Vec::new(),
        }
    }

    fn from_parts(negative: bool, mut limbs: Vec<u32>) -> Big {
        trim(&mut limbs);
        Big {
            negative: negative && !limbs.is_empty(),
            limbs,
        }
    }

    /// Whether the number is 0.
    pub fn is_zero(&self) -> bool {
        self.limbs.is_empty()
    }

    /// Whether the number is below 0.
    pub fn is_negative(&self) -> bool {
        self.negative
    }

    /// The size of the number, without its sign.
    pub fn abs(&self) -> Big {
        Big {
            negative: false,
            limbs: self.limbs.clone(),
        }
    }

    /// The number as an `i128`, if it fits.
    pub fn to_i128(&self) -> Option<i128> {
        if self.limbs.len() > 4 {
            return None;
        }
        let mut size: u128 = 0;
        for &limb in self.limbs.iter().rev() {
            size = size << 32 | u128::from(limb);
        }
        if self.negative {
            0i128.checked_sub_unsigned(size)
        } else {
            i128::try_from(size).ok()
        }
    }

    /// The quotient rounded down and the remainder, which has the divisor's
    /// sign or is 0. `None` if the divisor is 0.
    pub fn div_rem_floor(&self, divisor: &Big) -> Option<(Big, Big)> {
        if divisor.is_zero() {
            return None;
        }
        let (q, r) = mag_div_rem(&self.limbs, &divisor.limbs);
        let quotient = Big::from_parts(self.negative != divisor.negative, q);
        let remainder = Big::from_parts(self.negative, r);
        if remainder.is_zero() || remainder.negative == divisor.negative {
            Some((quotient, remainder))
        } else {
            Some((&quotient - &Big::from(1), &remainder + divisor))
        }
    }

    /// The quotient rounded down. `None` if the divisor is 0.
    pub fn floor_div(&self, divisor: &Big) -> Option<Big> {
        self.div_rem_floor(divisor).map(|(q, _)| q)
    }

    /// The quotient rounded up. `None` if the divisor is 0.
    pub fn ceil_div(&self, divisor: &Big) -> Option<Big> {
        self.div_rem_floor(divisor)
            .map(|(q, r)| if r.is_zero() { q } else { &q + &Big::from(1) })
    }

    /// The greatest common divisor of the two sizes; gcd(0, n) is the size of n.
    pub fn gcd(&self, other: &Big) -> Big {
        let mut a = self.limbs.clone();
        let mut b = other.limbs.clone();
        while !b.is_empty() {
            let (_, r) = mag_div_rem(&a, &b);
            a = b;
            b = r;
        }
        Big::from_parts(false, a)
    }
}

impl From<i128> for Big {
    fn from(value: i128) -> Big {
        let mut size = value.unsigned_abs();
        let mut limbs = Vec::new();
        while size != 0 {
            limbs.push((size & 0xffff_ffff) as u32);
            size >>= 32;
        }
        Big::from_parts(value < 0, limbs)
    }
}

impl From<i64> for Big {
    fn from(value: i64) -> Big {
        Big::from(i128::from(value))
    }
}

impl From<i32> for Big {
    fn from(value: i32) -> Big {
        Big::from(i128::from(value))
    }
}

impl Neg for &Big {
    type Output = Big;
    fn neg(self) -> Big {
        Big::from_parts(!self.negative, self.limbs.clone())
    }
}

impl Add for &Big {
    type Output = Big;
    fn add(self, other: &Big) -> Big {
        if self.negative == other.negative {
            return Big::from_parts(self.negative, mag_add(&self.limbs, &other.limbs));
        }
        match mag_cmp(&self.limbs, &other.limbs) {
            Ordering::Less => Big::from_parts(other.negative, mag_sub(&other.limbs, &self.limbs)),
            _ => Big::from_parts(self.negative, mag_sub(&self.limbs, &other.limbs)),
        }
    }
}

impl Sub for &Big {
    type Output = Big;
    fn sub(self, other: &Big) -> Big {
        self + &-other
    }
}

impl Mul for &Big {
    type Output = Big;
    fn mul(self, other: &Big) -> Big {
        Big::from_parts(
            self.negative != other.negative,
            mag_mul(&self.limbs, &other.limbs),
        )
    }
}

impl Ord for Big {
    fn cmp(&self, other: &Big) -> Ordering {
        match (self.negative, other.negative) {
            (false, true) => Ordering::Greater,
            (true, false) => Ordering::Less,
            (false, false) => mag_cmp(&self.limbs, &other.limbs),
            (true, true) => mag_cmp(&other.limbs, &self.limbs),
        }
    }
}

impl PartialOrd for Big {
    fn partial_cmp(&self, other: &Big) -> Option<Ordering> {
        Some(self.cmp(other))
    }
}

impl fmt::Display for Big {
    fn fmt(&self, f: &mut fmt::Formatter<'_>) -> fmt::Result {
        let mut groups = Vec::new();
        let mut rest = self.limbs.clone();
        while !rest.is_empty() {
            let (quotient, group) = mag_div_limb(&rest, 1_000_000_000);
            groups.push(group);
            rest = quotient;
        }
        let mut text = groups.pop().unwrap_or(0).to_string();
        for group in groups.iter().rev() {
            text.push_str(&format!("{group:09}"));
        }
        f.pad_integral(!self.negative, "", &text)
    }
}

// Magnitudes: limbs, lowest first. Results may be untrimmed only where
// `Big::from_parts` trims them; divisions return trimmed limbs.

fn trim(limbs: &mut Vec<u32>) {
    while limbs.last() == Some(&0) {
        limbs.pop();
    }
}

/// Compares two trimmed magnitudes.
fn mag_cmp(a: &[u32], b: &[u32]) -> Ordering {
    a.len()
        .cmp(&b.len())
        .then_with(|| a.iter().rev().cmp(b.iter().rev()))
}

fn mag_add(a: &[u32], b: &[u32]) -> Vec<u32> {
    let (long, short) = if a.len() < b.len() { (b, a) } else { (a, b) };
    let mut sum = Vec::with_capacity(long.len() + 1);
    let mut carry: u64 = 0;
    for (i, &limb) in long.iter().enumerate() {
        carry += u64::from(limb) + u64::from(short.get(i).copied().unwrap_or(0));
        sum.push(carry as u32);
        carry >>= 32;
    }
    sum.push(carry as u32);
    sum
}

/// The difference of two magnitudes, the first not less than the second.
fn mag_sub(a: &[u32], b: &[u32]) -> Vec<u32> {
    let mut difference = Vec::with_capacity(a.len());
    let mut borrow: i64 = 0;
    for (i, &limb) in a.iter().enumerate() {
        let value = i64::from(limb) - i64::from(b.get(i).copied().unwrap_or(0)) - borrow;
        borrow = i64::from(value < 0);
        difference.push(value as u32);
    }
    difference
}

fn mag_mul(a: &[u32], b: &[u32]) -> Vec<u32> {
    let mut product = vec![0u32; a.len() + b.len()];
    for (i, &x) in a.iter().enumerate() {
        let mut carry: u64 = 0;
        for (j, &y) in b.iter().enumerate() {
            carry += u64::from(x) * u64::from(y) + u64::from(product[i + j]);
            product[i + j] = carry as u32;
            carry >>= 32;
        }
        product[i + b.len()] = carry as u32;
    }
    product
}

/// Quotient and remainder by one limb, which is not 0.
fn mag_div_limb(a: &[u32], divisor: u32) -> (Vec<u32>, u32) {
    let mut quotient = vec![0u32; a.len()];
    let mut rest: u64 = 0;
    for i in (0..a.len()).rev() {
        rest = rest << 32 | u64::from(a[i]);
        quotient[i] = (rest / u64::from(divisor)) as u32;
        rest %= u64::from(divisor);
    }
    trim(&mut quotient);
    (quotient, rest as u32)
}

/// Quotient and remainder of trimmed magnitudes, the divisor not 0: long
/// division on limbs, with the divisor shifted so that its top bit is set.
fn mag_div_rem(a: &[u32], b: &[u32]) -> (Vec<u32>, Vec<u32>) {
    if mag_cmp(a, b) == Ordering::Less {
        return (Vec::new(), a.to_vec());
    }
    if b.len() == 1 {
        let (quotient, rest) = mag_div_limb(a, b[0]);
        let mut remainder = vec![rest];
        trim(&mut remainder);
        return (quotient, remainder);
    }
    let shift = b[b.len() - 1].leading_zeros();
    let mut divisor = mag_shift_left(b, shift);
    trim(&mut divisor);
    let mut rest = mag_shift_left(a, shift);
    let mut quotient = vec![0u32; a.len() - b.len() + 1];
    for i in (0..quotient.len()).rev() {
        quotient[i] = div_step(&mut rest[i..=i + b.len()], &divisor);
    }
    trim(&mut quotient);
    let mut remainder = mag_shift_right(&rest, shift);
    trim(&mut remainder);
    (quotient, remainder)
}

/// Shifts left by less than 32 bits; the result has one limb more.
fn mag_shift_left(a: &[u32], shift: u32) -> Vec<u32> {
    let mut shifted = Vec::with_capacity(a.len() + 1);
    let mut carry: u64 = 0;
    for &limb in a {
        carry |= u64::from(limb) << shift;
        shifted.push(carry as u32);
        carry >>= 32;
    }
    shifted.push(carry as u32);
    shifted
}

/// Shifts right by less than 32 bits.
fn mag_shift_right(a: &[u32], shift: u32) -> Vec<u32> {
    let mut shifted = vec![0u32; a.len()];
    for (i, slot) in shifted.iter_mut().enumerate() {
        let above = u64::from(a.get(i + 1).copied().unwrap_or(0));
        *slot = ((above << 32 | u64::from(a[i])) >> shift) as u32;
    }
    shifted
}

/// One quotient limb. `window` has one limb more than `divisor`, whose top
/// bit is set and which has at least two limbs; `window` keeps the rest.
fn div_step(window: &mut [u32], divisor: &[u32]) -> u32 {
    let n = divisor.len();
    let top = u64::from(divisor[n - 1]);
    let next = u64::from(divisor[n - 2]);
    let head = u64::from(window[n]) << 32 | u64::from(window[n - 1]);
    let mut guess = head / top;
    let mut rest = head % top;
    while guess >> 32 != 0 || guess * next > (rest << 32 | u64::from(window[n - 2])) {
        guess -= 1;
        rest += top;
        if rest >> 32 != 0 {
            break;
        }
    }
    if subtract_product(window, divisor, guess) {
        guess -= 1;
        add_back(window, divisor);
    }
    guess as u32
}

/// Subtracts `factor` times `divisor` from `window`; whether it went below 0.
fn subtract_product(window: &mut [u32], divisor: &[u32], factor: u64) -> bool {
    let mut carry: u64 = 0;
    let mut borrow: i64 = 0;
    for (i, slot) in window.iter_mut().enumerate() {
        carry += factor * u64::from(divisor.get(i).copied().unwrap_or(0));
        let value = i64::from(*slot) - i64::from(carry as u32) - borrow;
        borrow = i64::from(value < 0);
        *slot = value as u32;
        carry >>= 32;
    }
    borrow != 0
}

/// Adds `divisor` to `window`, dropping the carry out of it.
fn add_back(window: &mut [u32], divisor: &[u32]) {
    let mut carry: u64 = 0;
    for (i, slot) in window.iter_mut().enumerate() {
        carry += u64::from(*slot) + u64::from(divisor.get(i).copied().unwrap_or(0));
        *slot = carry as u32;
        carry >>= 32;
    }
}
