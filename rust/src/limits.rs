//! The limits, by name.

/// The least precision.
///
/// ```
/// use yildegga::{Format, LEAST_PRECISION};
/// assert!(Format::plain(LEAST_PRECISION).image_length().is_some());
/// assert!(Format::plain(LEAST_PRECISION - 1).image_length().is_none());
/// ```
pub const LEAST_PRECISION: u32 = 1;

/// The greatest precision.
///
/// ```
/// use yildegga::{Format, GREATEST_PRECISION};
/// assert!(Format::plain(GREATEST_PRECISION).image_length().is_some());
/// assert!(Format::plain(GREATEST_PRECISION + 1).image_length().is_none());
/// ```
pub const GREATEST_PRECISION: u32 = 12;

/// The fewest table guard bits.
///
/// ```
/// use yildegga::{Format, LEAST_TABLE_GUARD_BITS};
/// assert!(Format::plain(2).with_guard_bits(LEAST_TABLE_GUARD_BITS, 3).image_length().is_some());
/// assert!(Format::plain(2).with_guard_bits(LEAST_TABLE_GUARD_BITS - 1, 3).image_length().is_none());
/// ```
pub const LEAST_TABLE_GUARD_BITS: u32 = 2;

/// The most table guard bits.
///
/// ```
/// use yildegga::{Format, GREATEST_TABLE_GUARD_BITS};
/// assert!(Format::plain(2).with_guard_bits(GREATEST_TABLE_GUARD_BITS, 3).image_length().is_some());
/// assert!(Format::plain(2).with_guard_bits(GREATEST_TABLE_GUARD_BITS + 1, 3).image_length().is_none());
/// ```
pub const GREATEST_TABLE_GUARD_BITS: u32 = 4;

/// The fewest input guard bits.
///
/// ```
/// use yildegga::{Format, LEAST_INPUT_GUARD_BITS};
/// assert!(Format::plain(2).with_guard_bits(2, LEAST_INPUT_GUARD_BITS).image_length().is_some());
/// assert!(Format::plain(2).with_guard_bits(2, LEAST_INPUT_GUARD_BITS - 1).image_length().is_none());
/// ```
pub const LEAST_INPUT_GUARD_BITS: u32 = 3;

/// The most input guard bits.
///
/// ```
/// use yildegga::{Format, GREATEST_INPUT_GUARD_BITS};
/// assert!(Format::plain(2).with_guard_bits(2, GREATEST_INPUT_GUARD_BITS).image_length().is_some());
/// assert!(Format::plain(2).with_guard_bits(2, GREATEST_INPUT_GUARD_BITS + 1).image_length().is_none());
/// ```
pub const GREATEST_INPUT_GUARD_BITS: u32 = 5;

/// The fewest fraction bits that an operand has, at every precision.
///
/// ```
/// use yildegga::{reciprocal, Format, Ulps, LEAST_FRACTION_BITS};
/// let (two, image) = (Format::plain(2), [0x02, 0x75, 0x8A]);
/// assert_eq!(reciprocal(two, &image, LEAST_FRACTION_BITS, 2), Ok(Ulps(32)));
/// assert_eq!(reciprocal(two, &image, LEAST_FRACTION_BITS - 1, 1).unwrap_err().number(), 4);
/// ```
pub const LEAST_FRACTION_BITS: u32 = 1;

/// The most fraction bits that an operand has, at every precision.
///
/// ```
/// use yildegga::{reciprocal, Format, Ulps, MOST_FRACTION_BITS};
/// let image = [0x02, 0x75, 0x8A];
/// assert_eq!(reciprocal(Format::plain(2), &image, MOST_FRACTION_BITS, u64::MAX), Ok(Ulps(16)));
/// ```
pub const MOST_FRACTION_BITS: u32 = 63;

/// The number of the last node, 2^k; `None` where k is no precision.
///
/// ```
/// assert_eq!(yildegga::last_node(2), Some(4));
/// assert_eq!(yildegga::last_node(13), None);
/// ```
pub const fn last_node(k: u32) -> Option<u32> {
    if LEAST_PRECISION <= k && k <= GREATEST_PRECISION {
        Some(1 << k)
    } else {
        None
    }
}
