//! Fractions: both forms agree, and the laws of fractions hold.

use reference::big::Big;
use reference::fraction::Fraction;
use reference::generate::SplitMix64;

fn fraction(num: i128, den: i128) -> Fraction {
    Fraction::new(num, den).expect("denominator not 0")
}

/// The same value with a numerator and denominator far beyond `i128`.
fn enlarged(value: &Fraction) -> Fraction {
    let mut scale = Big::from(i128::MAX);
    scale = &scale * &scale;
    Fraction::from_big(&value.num() * &scale, &value.den() * &scale).expect("denominator not 0")
}

fn random_fraction(random: &mut SplitMix64, bits: i64) -> Fraction {
    let shift = 64 - random.between(1, bits);
    let num = i128::from(random.next_u64() >> shift) - i128::from(random.next_u64() >> shift);
    let den = i128::from(random.next_u64() >> shift) + 1;
    fraction(num, if random.one_in(2) { -den } else { den })
}

#[test]
fn both_forms_agree() {
    let mut random = SplitMix64::new(11);
    for _ in 0..5_000 {
        let a = random_fraction(&mut random, 64);
        let b = random_fraction(&mut random, 64);
        let (x, y) = (enlarged(&a), enlarged(&b));
        assert_eq!(a, x);
        assert_eq!(&a + &b, &x + &y);
        assert_eq!(&a - &b, &x - &y);
        assert_eq!(&a * &b, &x * &y);
        assert_eq!(-&a, -&x);
        assert_eq!(a.checked_div(&b), x.checked_div(&y));
        assert_eq!(a.cmp(&b), x.cmp(&y));
        assert_eq!(a.cmp(&y), x.cmp(&b));
        assert_eq!(a.floor(), x.floor());
        assert_eq!(a.ceil(), x.ceil());
        assert_eq!(a.is_negative(), x.is_negative());
        assert_eq!(a.to_string(), x.to_string());
    }
}

#[test]
fn laws_across_the_overflow() {
    let mut random = SplitMix64::new(12);
    for _ in 0..3_000 {
        let a = random_fraction(&mut random, 64);
        let b = random_fraction(&mut random, 64);
        let c = random_fraction(&mut random, 64);
        assert_eq!(&(&a + &b) + &c, &a + &(&b + &c));
        assert_eq!(&(&a * &b) * &c, &a * &(&b * &c));
        assert_eq!(&a * &(&b + &c), &(&a * &b) + &(&a * &c));
        assert_eq!(&(&a - &b) + &b, a);
        if let Some(quotient) = a.checked_div(&b) {
            assert_eq!(&quotient * &b, a);
        }
        assert_eq!(a < b, (&a - &b).is_negative());
        let product = &(&a * &b) * &c;
        assert_eq!(product, product.reduced());
        let (down, up) = (product.floor(), product.ceil());
        let as_fraction = |n: Big| Fraction::from_big(n, Big::from(1)).expect("over 1");
        assert!(as_fraction(down.clone()) <= product && product <= as_fraction(up.clone()));
        assert!(&up - &down <= Big::from(1));
        assert_eq!(up == down, product == as_fraction(up));
    }
}

#[test]
fn small_values() {
    assert_eq!(fraction(1, 3).to_string(), "1/3");
    assert_eq!(fraction(4, -6).to_string(), "-2/3");
    assert_eq!(fraction(-12, -4).to_string(), "3");
    assert_eq!(fraction(0, -7), Fraction::zero());
    assert_eq!(&fraction(1, 2) + &fraction(1, 3), fraction(5, 6));
    assert_eq!(&fraction(1, 2) - &fraction(2, 3), fraction(-1, 6));
    assert_eq!(fraction(7, 2).floor(), Big::from(3));
    assert_eq!(fraction(7, 2).ceil(), Big::from(4));
    assert_eq!(fraction(-7, 2).floor(), Big::from(-4));
    assert_eq!(fraction(-7, 2).ceil(), Big::from(-3));
    assert_eq!(fraction(-8, 2).floor(), fraction(-8, 2).ceil());
    assert!(Fraction::new(1, 0).is_none());
    assert!(Fraction::from_big(Big::from(1), Big::zero()).is_none());
    assert!(fraction(1, 2).checked_div(&Fraction::zero()).is_none());
}

#[test]
fn i128_limits() {
    let least = fraction(i128::MIN, 1);
    let same = fraction(i128::MIN, -1);
    assert_eq!(-&least, same);
    assert_eq!(&least + &same, Fraction::zero());
    assert_eq!(same.to_string(), "170141183460469231731687303715884105728");
    assert_eq!(fraction(i128::MIN, i128::MIN), Fraction::from(1));
    assert_eq!(fraction(i128::MIN, i128::MIN).to_string(), "1");
    let most = fraction(i128::MAX, i128::MAX - 1);
    assert_eq!(most.floor(), Big::from(1));
    assert_eq!(most.ceil(), Big::from(2));
    assert!(&most * &most > most);
    assert!(&most + &most > most);
}
