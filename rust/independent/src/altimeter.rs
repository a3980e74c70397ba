//! Limits of the altimeter elements, and verdicts on values.

use crate::refusal::{Reason, Refusal};

/// An element by its number in the element definitions, with its limits.
#[derive(Clone, Copy, Debug, PartialEq, Eq)]
pub struct Limits {
    pub element: u64,
    pub minimum: i64,
    pub maximum: i64,
}

/// Where a value stands with regard to the limits, which are inside.
#[derive(Clone, Copy, Debug, PartialEq, Eq)]
pub enum Verdict {
    Below,
    Inside,
    Above,
}

const fn limits(element: u64, minimum: i64, maximum: i64) -> Limits {
    Limits {
        element,
        minimum,
        maximum,
    }
}

const SIX_BYTES: i64 = 0xffff_ffff_ffff;

/// Every element stored as a binary integer for which both limits are stated.
/// Limits printed in hexadecimal are taken as the numbers they are; elements
/// 187 and 188 hold 64 samples each, and their limits are those of one sample.
pub const TABLE: [Limits; 95] = [
    limits(1, 0, 6_600),
    limits(2, 0, 6_600),
    limits(3, 0, SIX_BYTES),
    limits(6, 0, SIX_BYTES),
    limits(8, -32_768, 32_767),
    limits(9, -32_768, 32_767),
    limits(10, -32_768, 32_767),
    limits(11, -2_721, 10_200),
    limits(12, -2_000, 9_999),
    limits(13, -2_000, 9_999),
    limits(14, -2_000, 9_999),
    limits(15, -2_000, 9_999),
    limits(16, -2_000, 9_999),
    limits(17, -2_721, 10_200),
    limits(18, -2_000, 9_999),
    limits(19, -2_000, 9_999),
    limits(20, -2_000, 9_999),
    limits(21, -2_000, 9_999),
    limits(22, -2_000, 9_999),
    limits(23, -2_000, 9_999),
    limits(24, -2_000, 9_999),
    limits(25, -2_000, 9_999),
    limits(26, -2_000, 9_999),
    limits(27, -2_000, 9_999),
    limits(28, -2_000, 9_999),
    limits(29, -2_000, 9_999),
    limits(30, -2_000, 9_999),
    limits(31, -2_000, 9_999),
    limits(32, -2_000, 9_999),
    limits(33, -2_000, 9_999),
    limits(34, -2_000, 9_999),
    limits(35, -2_000, 9_999),
    limits(36, -2_000, 9_999),
    limits(37, -2_000, 9_999),
    limits(38, -2_000, 9_999),
    limits(39, 10_000, 14_000),
    limits(40, 24_000, 32_000),
    limits(41, 14_000, 16_000),
    limits(42, -16_000, -14_000),
    limits(43, 4_750, 5_250),
    limits(44, 4_750, 5_250),
    limits(45, -5_700, -4_700),
    limits(46, -6_500, -5_500),
    limits(47, 18_000, 22_000),
    limits(48, 0, 9_000),
    limits(49, 0, 9_000),
    limits(50, 0, 15_000),
    limits(51, 0, 9_500),
    limits(52, 18_000, 22_000),
    limits(53, -3_500, 3_500),
    limits(54, 0, 1_200),
    limits(55, 0, 8_000),
    limits(58, 0, 255),
    limits(66, 0, 255),
    limits(78, 0, 128),
    limits(79, 0, 17),
    limits(80, 0, 128),
    limits(81, 0, 17),
    limits(84, 0, 16),
    limits(85, 0, 16),
    limits(86, 0, 255),
    limits(87, 0, 255),
    limits(99, 1_000_000_000, 1_400_000_000),
    limits(105, -90_000_000, 90_000_000),
    limits(107, 0, 359_999_999),
    limits(109, 0, 65_535),
    limits(113, -5_000, -4_000),
    limits(114, 0, 1_000),
    limits(120, 0, 255),
    limits(123, -2_000, 2_000),
    limits(136, 1_323_000_000, 1_363_000_000),
    limits(137, 1_323_000_000, 1_363_000_000),
    limits(138, -32_768, 32_767),
    limits(141, -2_000, 2_000),
    limits(142, 1_323_000_000, 1_363_000_000),
    limits(143, -32_768, 32_767),
    limits(152, 0, 32_767),
    limits(155, 0, 32_767),
    limits(156, 0, 3_599),
    limits(157, -128, 127),
    limits(160, -128, 127),
    limits(161, -32_768, 32_767),
    limits(162, 0, 0),
    limits(165, 0, 255),
    limits(168, 0, 99_999_999),
    limits(169, 0, 999_999),
    limits(177, 0, SIX_BYTES),
    limits(180, 500_000, 520_000),
    limits(183, 0, 255),
    limits(184, 0, 255),
    limits(187, 0, 255),
    limits(188, 0, 255),
    limits(189, 0, 15),
    limits(190, 0, 15),
    limits(191, -18_000, 18_000),
];

/// Judges a value against the limits of an element.
pub fn verdict(element: u64, value: i64) -> Result<Verdict, Refusal> {
    let limits = TABLE
        .iter()
        .find(|limits| limits.element == element)
        .ok_or(Reason::Unknown.at_start())?;
    Ok(if value < limits.minimum {
        Verdict::Below
    } else if value > limits.maximum {
        Verdict::Above
    } else {
        Verdict::Inside
    })
}

#[cfg(test)]
mod tests {
    use super::*;

    fn stated(element: u64) -> Option<(i64, i64)> {
        TABLE
            .iter()
            .find(|limits| limits.element == element)
            .map(|limits| (limits.minimum, limits.maximum))
    }

    #[test]
    fn the_table_is_in_order_and_each_range_holds_a_number() {
        assert!(TABLE
            .windows(2)
            .all(|pair| pair[0].element < pair[1].element));
        assert!(TABLE.iter().all(|limits| limits.minimum <= limits.maximum));
    }

    #[test]
    fn the_elements_named_in_the_contract() {
        let named = [
            (&[8, 9, 10, 143][..], -32_768, 32_767),
            (&[11], -2_721, 10_200),
            (&[12, 13, 14, 15, 16], -2_000, 9_999),
            (&[81], 0, 17),
            (&[84, 85], 0, 16),
            (&[86, 87], 0, 255),
            (&[141], -2_000, 2_000),
            (&[142], 1_323_000_000, 1_363_000_000),
        ];
        for (elements, minimum, maximum) in named {
            for &element in elements {
                assert_eq!(stated(element), Some((minimum, maximum)));
            }
        }
    }

    #[test]
    fn elements_of_other_types_are_unknown() {
        let others = [
            4,
            5,
            7,
            56,
            57,
            59,
            61,
            64,
            75,
            90,
            93,
            96,
            110,
            119,
            122,
            140,
            147,
            149,
            164,
            166,
            176,
            182,
            185,
            0,
            192,
            u64::MAX,
            1 + (1 << 32),
        ];
        for element in others {
            assert_eq!(verdict(element, 0), Err(Reason::Unknown.at_start()));
        }
    }

    #[test]
    fn limits_themselves_are_inside() {
        for limits in TABLE {
            let judge = |value| verdict(limits.element, value).unwrap();
            assert_eq!(judge(i64::MIN), Verdict::Below);
            assert_eq!(judge(limits.minimum - 1), Verdict::Below);
            assert_eq!(judge(limits.minimum), Verdict::Inside);
            assert_eq!(judge(limits.maximum), Verdict::Inside);
            assert_eq!(judge(limits.maximum + 1), Verdict::Above);
            assert_eq!(judge(i64::MAX), Verdict::Above);
        }
    }
}
