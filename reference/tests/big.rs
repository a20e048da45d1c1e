//! The whole numbers against `i128` and by algebraic identities.

use reference::big::Big;
use reference::generate::SplitMix64;

fn small(random: &mut SplitMix64) -> i128 {
    let bits = random.between(0, 62);
    i128::from(random.next_u64() as i64 >> bits)
}

/// A number of up to `limbs` limbs, with many limbs at the extremes.
fn large(random: &mut SplitMix64, limbs: i64) -> Big {
    let base = Big::from(1i128 << 32);
    let mut value = Big::zero();
    for _ in 0..random.between(0, limbs) {
        let limb = match random.between(0, 5) {
            0 => 0,
            1 => 0xffff_ffff,
            2 => 0x8000_0000,
            _ => i128::from(random.next_u64() as u32),
        };
        value = &(&value * &base) + &Big::from(limb);
    }
    if random.one_in(2) {
        -&value
    } else {
        value
    }
}

#[test]
fn agrees_with_i128() {
    let mut random = SplitMix64::new(1);
    for _ in 0..40_000 {
        let (a, b) = (small(&mut random), small(&mut random));
        let (x, y) = (Big::from(a), Big::from(b));
        assert_eq!((&x + &y).to_i128(), Some(a + b));
        assert_eq!((&x - &y).to_i128(), Some(a - b));
        assert_eq!((&x * &y).to_i128(), Some(a * b));
        assert_eq!((-&x).to_i128(), Some(-a));
        assert_eq!(x.cmp(&y), a.cmp(&b));
        assert_eq!(x == y, a == b);
        assert_eq!(x.abs().to_i128(), Some(a.abs()));
        assert_eq!(x.to_string(), a.to_string());
        divisions(a, b);
        divisions(a * b, b);
        divisions(a * b, a - b);
    }
}

fn divisions(a: i128, b: i128) {
    let (x, y) = (Big::from(a), Big::from(b));
    if b == 0 {
        assert_eq!(x.floor_div(&y), None);
        assert_eq!(x.ceil_div(&y), None);
        return;
    }
    let exact = a % b == 0;
    let down = a / b - i128::from(!exact && (a < 0) != (b < 0));
    let up = a / b + i128::from(!exact && (a < 0) == (b < 0));
    assert_eq!(x.floor_div(&y), Some(Big::from(down)), "{a} / {b}");
    assert_eq!(x.ceil_div(&y), Some(Big::from(up)), "{a} / {b}");
    let common = x.gcd(&y).to_i128().unwrap_or(0);
    assert!(common > 0 && a % common == 0 && b % common == 0);
}

#[test]
fn i128_limits() {
    for value in [i128::MIN, i128::MIN + 1, -1, 0, 1, i128::MAX - 1, i128::MAX] {
        let big = Big::from(value);
        assert_eq!(big.to_i128(), Some(value));
        assert_eq!(big.to_string(), value.to_string());
    }
    let above = &Big::from(i128::MAX) + &Big::from(1);
    let below = &Big::from(i128::MIN) - &Big::from(1);
    assert_eq!(above.to_i128(), None);
    assert_eq!(below.to_i128(), None);
    assert_eq!((-&above).to_i128(), Some(i128::MIN));
    assert_eq!(above.to_string(), "170141183460469231731687303715884105728");
    assert_eq!(
        below.to_string(),
        "-170141183460469231731687303715884105729"
    );
}

#[test]
fn ring_identities_on_large_numbers() {
    let mut random = SplitMix64::new(2);
    for _ in 0..3_000 {
        let a = large(&mut random, 24);
        let b = large(&mut random, 24);
        let c = large(&mut random, 24);
        assert_eq!(&a + &b, &b + &a);
        assert_eq!(&a * &b, &b * &a);
        assert_eq!(&(&a + &b) + &c, &a + &(&b + &c));
        assert_eq!(&(&a * &b) * &c, &a * &(&b * &c));
        assert_eq!(&a * &(&b + &c), &(&a * &b) + &(&a * &c));
        assert_eq!(&(&a + &b) - &b, a);
        assert_eq!(&a - &a, Big::zero());
        assert_eq!(-&(&a - &b), &b - &a);
        let squares = &(&a * &a) - &(&b * &b);
        assert_eq!(&(&a + &b) * &(&a - &b), squares);
        assert_eq!(a < b, (&a - &b).is_negative());
        assert_eq!(a == b, (&a - &b).is_zero());
    }
}

#[test]
fn division_identities_on_large_numbers() {
    let mut random = SplitMix64::new(3);
    for _ in 0..20_000 {
        let a = large(&mut random, 16);
        let b = large(&mut random, 10);
        let Some((q, r)) = a.div_rem_floor(&b) else {
            assert!(b.is_zero());
            continue;
        };
        assert_eq!(&(&q * &b) + &r, a);
        assert!(r.is_zero() || r.is_negative() == b.is_negative());
        assert!(r.abs() < b.abs());
        let up = a.ceil_div(&b).unwrap_or_else(Big::zero);
        assert_eq!(up, -&(-&a).floor_div(&b).unwrap_or_else(Big::zero));
        assert_eq!((&a * &b).floor_div(&b), Some(a.clone()));
        assert_eq!((&a * &b).ceil_div(&b), Some(a));
    }
}

#[test]
fn gcd_divides_and_scales() {
    let mut random = SplitMix64::new(4);
    for _ in 0..1_000 {
        let a = large(&mut random, 10);
        let b = large(&mut random, 10);
        let c = large(&mut random, 6);
        let common = a.gcd(&b);
        assert_eq!((&a * &c).gcd(&(&b * &c)), &common * &c.abs());
        for number in [&a, &b] {
            if let Some((_, r)) = number.div_rem_floor(&common) {
                assert!(r.is_zero());
            }
        }
    }
}

#[test]
fn display_agrees_with_repeated_division() {
    let mut random = SplitMix64::new(5);
    let ten = Big::from(10);
    for _ in 0..300 {
        let value = large(&mut random, 12);
        let mut digits = String::new();
        let mut rest = value.abs();
        while let Some((q, r)) = rest.div_rem_floor(&ten).filter(|_| !rest.is_zero()) {
            digits.insert_str(0, &r.to_i128().unwrap_or(0).to_string());
            rest = q;
        }
        let expected = match (value.is_zero(), value.is_negative()) {
            (true, _) => "0".to_string(),
            (_, true) => format!("-{digits}"),
            _ => digits,
        };
        assert_eq!(value.to_string(), expected);
    }
}
