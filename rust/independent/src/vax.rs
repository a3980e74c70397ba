//! VAX floating-point numbers as 64-bit floats.
//!
//! Both formats come as 16-bit words, each with its low byte first, the most
//! significant word in front. That first word holds the sign, eight bits of
//! exponent and the top seven bits of the fraction.

use crate::refusal::{Reason, Refusal};

/// Reads an F number from the front of the lent bytes.
pub fn f_float(bytes: &[u8]) -> Result<f64, Refusal> {
    let [first, second] = words(bytes)?;
    let fraction = (u64::from(first & 0x7f) << 16) | u64::from(second);
    // 23 fraction bits become the top of 52.
    number(first, fraction << 29)
}

/// Reads a D number from the front of the lent bytes as the nearest 64-bit
/// float, a tie going to the even one.
///
/// The language rounds a mantissa that is made a float in just this way. The
/// power of two by which it is multiplied then changes its exponent alone.
pub fn d_float(bytes: &[u8]) -> Result<f64, Refusal> {
    let [first, ..] = words::<4>(bytes)?;
    if exponent_in(first) == 0 {
        return number(first, 0);
    }
    let mantissa = (1 << 55) + d_fraction(bytes)?;
    let size = mantissa as f64 * power_of_two(exponent_in(first) as i32 - 184);
    Ok(if sign_in(first) == 0 { size } else { -size })
}

/// Reads a D number from the front of the lent bytes, without the three
/// lowest of its 55 fraction bits.
pub fn d_float_dropped(bytes: &[u8]) -> Result<f64, Refusal> {
    let [first, ..] = words::<4>(bytes)?;
    number(first, d_fraction(bytes)? >> 3)
}

/// The 55 bits of a D number's fraction.
fn d_fraction(bytes: &[u8]) -> Result<u64, Refusal> {
    let [first, second, third, fourth] = words(bytes)?;
    Ok((u64::from(first & 0x7f) << 48)
        | (u64::from(second) << 32)
        | (u64::from(third) << 16)
        | u64::from(fourth))
}

/// Two to a power that a 64-bit float has with all its digits.
fn power_of_two(power: i32) -> f64 {
    f64::from_bits(((power + 1023) as u64) << 52)
}

fn sign_in(first: u16) -> u64 {
    u64::from(first >> 15)
}

fn exponent_in(first: u16) -> u64 {
    u64::from((first >> 7) & 0xff)
}

/// The first `N` words of the lent bytes.
fn words<const N: usize>(bytes: &[u8]) -> Result<[u16; N], Refusal> {
    if bytes.len() < 2 * N {
        return Err(Reason::Short.at_start());
    }
    Ok(std::array::from_fn(|at| {
        u16::from_le_bytes([bytes[2 * at], bytes[2 * at + 1]])
    }))
}

/// Puts a float together from the first word and 52 bits of fraction.
///
/// A VAX mantissa lies between a half and one, and its exponent has a bias of
/// 128. The mantissa of a 64-bit float lies between one and two with a bias of
/// 1023, so the exponent field grows by 1023 - 128 - 1.
fn number(first: u16, fraction: u64) -> Result<f64, Refusal> {
    match (sign_in(first), exponent_in(first)) {
        (0, 0) => Ok(0.0),
        (_, 0) => Err(Reason::Reserved.at_start()),
        (sign, exponent) => Ok(f64::from_bits(
            (sign << 63) | ((exponent + 894) << 52) | fraction,
        )),
    }
}

#[cfg(test)]
mod tests {
    use super::*;

    /// A fraction of so many bits that differs from exponent to exponent.
    fn some_fraction(exponent: u64, bits: u32) -> u64 {
        (exponent + 1).wrapping_mul(0x9e37_79b9_7f4a_7c15) >> (64 - bits)
    }

    /// The published formula, by multiplying with an exact power of two.
    fn by_formula(negative: bool, mantissa: u64, exponent: i32) -> f64 {
        let size = mantissa as f64 * 2f64.powi(exponent);
        if negative {
            -size
        } else {
            size
        }
    }

    #[test]
    fn f_numbers_follow_the_formula() {
        for exponent in 0..256u32 {
            for fraction in [0, 1, 0x7f_ffff, some_fraction(exponent.into(), 23) as u32] {
                for sign in [0, 1] {
                    let first = ((sign << 15) | (exponent << 7) | (fraction >> 16)) as u16;
                    let second = fraction as u16;
                    let bytes = [first.to_le_bytes(), second.to_le_bytes()].concat();
                    let expected = match (sign, exponent) {
                        (0, 0) => Ok(0),
                        (_, 0) => Err(Reason::Reserved.at_start()),
                        _ => {
                            let mantissa = (1 << 23) + u64::from(fraction);
                            let power = exponent as i32 - 152;
                            Ok(by_formula(sign == 1, mantissa, power).to_bits())
                        }
                    };
                    assert_eq!(f_float(&bytes).map(f64::to_bits), expected);
                }
            }
        }
    }

    /// The bytes of a D number.
    fn d_bytes(sign: u64, exponent: u64, fraction: u64) -> Vec<u8> {
        let bits = (sign << 63) | (exponent << 55) | fraction;
        [48, 32, 16, 0]
            .iter()
            .flat_map(|shift| ((bits >> shift) as u16).to_le_bytes())
            .collect()
    }

    #[test]
    fn dropped_d_numbers_follow_the_formula() {
        for exponent in 0..256u64 {
            let all = (1 << 55) - 1;
            for fraction in [0, 1, 7, 8, all, all - 7, some_fraction(exponent, 55)] {
                for sign in [0, 1] {
                    let bytes = d_bytes(sign, exponent, fraction);
                    let expected = match (sign, exponent) {
                        (0, 0) => Ok(0),
                        (_, 0) => Err(Reason::Reserved.at_start()),
                        _ => {
                            let mantissa = ((1 << 55) + fraction) & !7;
                            let power = exponent as i32 - 184;
                            Ok(by_formula(sign == 1, mantissa, power).to_bits())
                        }
                    };
                    assert_eq!(d_float_dropped(&bytes).map(f64::to_bits), expected);
                }
            }
        }
    }

    /// A float in quarters of a D number's last place, 2^(exponent - 184). A
    /// float of that size or twice that size is a whole number of them.
    fn quarters(size: f64, exponent: u64) -> u64 {
        let bits = size.to_bits();
        let digits = (bits & ((1 << 52) - 1)) | (1 << 52);
        // The digits count 2^(field - 1075), and a quarter is 2^(exponent - 186).
        digits << ((bits >> 52) + 186 - exponent - 1075)
    }

    /// Neither neighbour is nearer, and one that is as near ends in a one.
    #[test]
    fn d_numbers_are_the_nearest() {
        for exponent in 1..256u64 {
            let all = (1 << 55) - 1;
            let some = some_fraction(exponent, 55) & !15;
            for fraction in (0..32).chain(some..some + 16).chain(all - 15..=all) {
                let number = 4 * ((1 << 55) + fraction);
                let size = d_float(&d_bytes(0, exponent, fraction)).unwrap();
                let opposite = d_float(&d_bytes(1, exponent, fraction)).unwrap();
                assert_eq!(opposite.to_bits(), (-size).to_bits());
                let away = |size| quarters(size, exponent).abs_diff(number);
                assert!(away(size) <= 4 * 4);
                for neighbour in [size.to_bits() - 1, size.to_bits() + 1] {
                    let other = away(f64::from_bits(neighbour));
                    assert!(away(size) <= other);
                    assert!(away(size) < other || neighbour % 2 == 1);
                }
                let dropped = d_float_dropped(&d_bytes(0, exponent, fraction)).unwrap();
                assert!([0, 1].contains(&(size.to_bits() - dropped.to_bits())));
            }
        }
    }

    #[test]
    fn a_carry_gives_the_next_power_of_two() {
        for exponent in 1..255u64 {
            let next = d_float(&d_bytes(0, exponent + 1, 0));
            for last in 1..=4 {
                assert_eq!(d_float(&d_bytes(0, exponent, (1 << 55) - last)), next);
            }
            let before = d_float(&d_bytes(0, exponent, (1 << 55) - 5)).unwrap();
            assert_eq!(before.to_bits() + 1, next.unwrap().to_bits());
        }
        let largest = d_float(&d_bytes(0, 255, (1 << 55) - 1));
        assert_eq!(largest, Ok(2f64.powi(127)));
    }

    #[test]
    fn zero_and_reserved_d_numbers_have_any_fraction() {
        for fraction in [0, 1, 4, 12, (1 << 55) - 1] {
            for read in [d_float, d_float_dropped] {
                let zero = read(&d_bytes(0, 0, fraction));
                assert_eq!(zero.map(f64::to_bits), Ok(0));
                let reserved = read(&d_bytes(1, 0, fraction));
                assert_eq!(reserved, Err(Reason::Reserved.at_start()));
            }
        }
    }

    #[test]
    fn what_follows_a_number_is_ignored() {
        assert_eq!(f_float(&[0x80, 0x40, 0, 0, 9, 9]), Ok(1.0));
        for read in [d_float, d_float_dropped] {
            assert_eq!(read(&[0x80, 0xc0, 0, 0, 0, 0, 0, 0, 9]), Ok(-1.0));
        }
    }

    #[test]
    fn short_comes_before_reserved() {
        assert_eq!(f_float(&[0, 0x80, 0]), Err(Reason::Short.at_start()));
        for read in [d_float, d_float_dropped] {
            let short = read(&[0, 0x80, 0, 0, 0, 0, 0]);
            assert_eq!(short, Err(Reason::Short.at_start()));
        }
    }
}
