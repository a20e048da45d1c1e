//! Floats that are no step, and rays with one of them.

use reference::generate::SplitMix64;
use reference::view::ViewRay;

/// Bits of floats that are no step: subnormal, the smallest normal and the
/// largest, infinite, or no number.
pub const SPECIAL: [u32; 34] = [
    // subnormal
    0x0000_0001,
    0x8000_0001,
    0x0000_0002,
    0x8000_0040,
    0x0040_0000,
    0x8040_0000,
    0x007f_ffff,
    0x807f_ffff,
    // the smallest normal, and next to it
    0x0080_0000,
    0x8080_0000,
    0x0080_0001,
    0x8080_0001,
    // the largest
    0x7f7f_ffff,
    0xff7f_ffff,
    // infinite
    0x7f80_0000,
    0xff80_0000,
    // quiet NaNs
    0x7fc0_0000,
    0xffc0_0000,
    0x7fc0_0001,
    0xffc0_0001,
    0x7fc0_07ff,
    0xffd5_5555,
    0x7fea_aaaa,
    0x7fff_ffff,
    0xffff_ffff,
    // signalling NaNs
    0x7f80_0001,
    0xff80_0001,
    0x7f80_07ff,
    0xff80_0800,
    0x7f95_5555,
    0xffaa_aaaa,
    0x7fa0_0000,
    0x7fbf_ffff,
    0xffbf_ffff,
];

/// Floats that are too far or between steps. The 64-folds of some are whole
/// and wrap to a step in 32 or 64 bits, or are too large for a float.
pub const OTHER: [f32; 22] = [
    32.0,
    -32.0,
    32.015625,
    -32.015625,
    33.0,
    64.0,
    2047.0,
    -2048.0,
    16_777_216.0,
    33_554_432.0,
    67_108_864.0,
    -67_108_872.0,
    144_115_188_075_855_872.0,
    288_230_376_151_711_744.0,
    -5.316_912e36,
    1e10,
    -1e38,
    0.1,
    1.0 / 128.0,
    -1.0 / 128.0,
    4095.0 / 128.0,
    1e-30,
];

/// Another float than the one given: next to it, half a step on, minus zero,
/// a special one or one of any bits.
#[allow(dead_code)]
fn other(random: &mut SplitMix64, float: f32) -> f32 {
    match random.between(0, 6) {
        0 => float.next_up(),
        1 => float.next_down(),
        2 => float + 1.0 / 128.0,
        3 => -0.0,
        4 => f32::from_bits(random.pick(&SPECIAL)),
        5 => random.pick(&OTHER),
        _ => f32::from_bits(random.next_u64() as u32),
    }
}

/// The ray, one of its floats another once in five, and its ends then equal
/// once in three. Whether it was changed.
#[allow(dead_code)]
pub fn changed(random: &mut SplitMix64, ray: &ViewRay) -> (ViewRay, bool) {
    let mut changed = *ray;
    let change = random.one_in(5);
    if change {
        let end = match random.one_in(2) {
            true => &mut changed.a,
            false => &mut changed.b,
        };
        let float = &mut end[random.between(0, 2) as usize];
        *float = other(random, *float);
        if random.one_in(3) {
            changed.b = changed.a;
        }
    }
    (changed, change)
}
