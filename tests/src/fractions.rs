//! Bits of binary64 fractions: those of the counts from 0 to 255, and those that question 21 refuses.

use crate::random::Random;

/// The bits of minus zero, which counts 0; they are the sign's.
pub const MINUS_ZERO: u64 = 1 << 63;

/// The bits of 1.
const ONE: u64 = 0x3ff0_0000_0000_0000;

/// Fractions that are refused, with their names; those that a count leads to are in `refused_of`.
const REFUSED: [(&str, u64); 36] = [
    ("the largest subnormal", 0x000f_ffff_ffff_ffff),
    ("minus the largest subnormal", 0x800f_ffff_ffff_ffff),
    ("a subnormal of one bit", 1 << 51),
    ("255 in the lowest byte", 255),
    ("the smallest normal", 1 << 52),
    ("minus the smallest normal", MINUS_ZERO | 1 << 52),
    ("2 to -61", 0x3c20_0000_0000_0000),
    ("2 to -9", 0x3f60_0000_0000_0000),
    ("2 to -8 as a binary32, low", 0x3b80_0000),
    ("2 to -8 as a binary32, high", 0x3b80_0000 << 32),
    ("one half with its bytes turned round", 0xe03f),
    ("one half less 2 to -54", 0x3fdf_ffff_ffff_ffff),
    ("255/256 and 2 to -9", 0x3fef_f000_0000_0000),
    ("the largest below 1", ONE - 1),
    ("1", ONE),
    ("the smallest above 1", ONE + 1),
    ("minus 1", MINUS_ZERO | ONE),
    ("257/256", 0x3ff0_1000_0000_0000),
    ("2", 0x4000_0000_0000_0000),
    ("255", 0x406f_e000_0000_0000),
    ("256", 0x4070_0000_0000_0000),
    ("2 to 24", 0x4170_0000_0000_0000),
    ("2 to 56", 0x4370_0000_0000_0000),
    ("2 to 64", 0x43f0_0000_0000_0000),
    ("the largest", 0x7fef_ffff_ffff_ffff),
    ("minus the largest", 0xffef_ffff_ffff_ffff),
    ("infinity", 0x7ff0_0000_0000_0000),
    ("minus infinity", 0xfff0_0000_0000_0000),
    ("a signalling NaN", 0x7ff0_0000_0000_0001),
    ("a signalling NaN of one high bit", 0x7ff4_0000_0000_0000),
    ("a negative signalling NaN", 0xfff0_0000_0000_0001),
    ("a quiet NaN", 0x7ff8_0000_0000_0000),
    ("a quiet NaN with more bits", 0x7ff8_0000_dead_beef),
    ("a negative quiet NaN", 0xfff8_0000_0000_0000),
    ("the positive NaN of all ones", u64::MAX >> 1),
    ("all ones", u64::MAX),
];

/// The bits of a count of 256ths.
pub fn fraction(count: u8) -> u64 {
    (f64::from(count) / 256.0).to_bits()
}

/// The two binary64 next to a count; to 0 those of either sign.
pub fn neighbours(count: u8) -> [u64; 2] {
    match fraction(count) {
        0 => [MINUS_ZERO | 1, 1],
        bits => [bits - 1, bits + 1],
    }
}

/// What is refused and a count leads to: its neighbours, a half of a 256th above it, and, but for 0, minus it and 1 and it.
fn refused_of(count: u8) -> Vec<(String, u64)> {
    let [below, above] = neighbours(count);
    let half = (f64::from(2 * u32::from(count) + 1) / 512.0).to_bits();
    let mut refused = vec![
        (format!("next below {count}/256"), below),
        (format!("next above {count}/256"), above),
        (format!("{}/512", 2 * u32::from(count) + 1), half),
    ];
    if count > 0 {
        refused.push((format!("-{count}/256"), MINUS_ZERO | fraction(count)));
        refused.push((format!("1 and {count}/256"), (1.0 + f64::from(count) / 256.0).to_bits()));
    }
    refused
}

/// The exponent fields of the counts from 1 on: 1/256 is 2 to -8, and from 128/256 on it is -1.
const COUNTED: std::ops::RangeInclusive<u64> = 1_015..=1_022;

/// Powers of two that no count is: those near the counts, and some of the others.
fn refused_powers() -> impl Iterator<Item = (String, u64)> {
    let near = (1_000..=1_040).filter(|field| !COUNTED.contains(field));
    let far = (1..1_000).chain(1_041..0x7ff).step_by(41);
    near.chain(far)
        .map(|field| (format!("2 to {}", field as i64 - 1_023), field << 52))
}

/// Fractions that question 21 refuses, with their names.
pub fn refused() -> Vec<(String, u64)> {
    let listed = REFUSED.into_iter().map(|(name, bits)| (name.to_string(), bits));
    listed.chain(refused_powers()).chain((0..=255).flat_map(refused_of)).collect()
}

/// A positive binary64 with an exponent as the counts have, or next to theirs, and up to twelve bits behind it: a count or none.
pub fn any_near(random: &mut Random) -> u64 {
    let behind = u64::from(random.between(0, (1 << 12) - 1)) & (0xfff << random.below(13));
    u64::from(random.between(1_014, 1_023)) << 52 | behind << 40
}

/// One of them, as often one that a count leads to as another.
pub fn any_refused(random: &mut Random) -> u64 {
    let count = random.byte();
    let of_count = refused_of(count);
    let bits = of_count[random.below(of_count.len())].1;
    if random.once_in(2) { bits } else { random.pick(&REFUSED).1 }
}
