//! The call on an operand.
use crate::format::Format;
use crate::refusal::{served, Refused};
use crate::units::Ulps;

/// The reciprocal of the operand `x`, which has `n` fraction bits, 1 to 63, and stands for x / 2^n, in ulps. It is less
/// than one ulp from the exact one, 2^n / x, and does not depend on the form of the image. The first 2k + b fraction
/// bits decide it, where b are the input guard bits, and those that `x` lacks count as zeros: `x` with just so many,
/// cut or padded, is the cut operand.
///
/// With the same precision and guard bits: at equal `n` a larger operand never has a larger reciprocal; where the cut
/// operands of two differ by d, their reciprocals differ by at most d / 2^(b-1) ulps, rounded up, which is d / 4 with
/// three input guard bits, at different `n` too. Both are so across nodes, and whatever images, in either form, the two
/// come from.
///
/// Turned back by refusals 1, 18, 2, 4, 5 and 6. The words of the two nodes about the operand are judged, and no
/// others.
///
/// ```
/// use yildegga::{Format, Ulps};
/// let (two, image) = (Format::plain(2), [0x02, 0x75, 0x8A]);
/// assert_eq!(yildegga::reciprocal(two, &image, 7, 128)?, Ulps(32));
/// assert_eq!(yildegga::reciprocal(two, &image, 7, 255)?, Ulps(16));
///
/// // An operand of n fraction bits is at least 2^n.
/// assert_eq!(yildegga::reciprocal(two, &image, 7, 127).unwrap_err().number(), 5);
///
/// // Eight fraction bits are looked at with four input guard bits, and seven with three.
/// assert_eq!(yildegga::reciprocal(two, &image, 8, 257)?, Ulps(32));
/// assert_eq!(yildegga::reciprocal(two.with_guard_bits(2, 4), &image, 8, 257)?, Ulps(31));
///
/// // There is a node at 576 / 2^9. Six steps of the cut operand, from 571 to 577, are two ulps: 6 / 4, rounded up.
/// let (three, image) = (Format::plain(3), [0x00, 0xC8, 0x9A, 0x75, 0x56, 0x3C, 0x25, 0x12]);
/// assert_eq!(yildegga::reciprocal(three, &image, 9, 571)?, Ulps(115));
/// assert_eq!(yildegga::reciprocal(three, &image, 9, 577)?, Ulps(113));
///
/// // The significand of a binary32 float has 23 fraction bits. Precision 12 looks at 27, and takes it as it is.
/// let (twelve, mut image) = (Format::full(12), vec![0; Format::LONGEST_FULL]);
/// yildegga::build(twelve, &mut image)?;
/// let x = 1 << 23 | u64::from(1.5f32.to_bits() % (1 << 23));
/// assert_eq!(yildegga::reciprocal(twelve, &image, 23, x)?, Ulps(22369621)); // 2^25 / 1.5, rounded down
/// # Ok::<(), yildegga::Refused>(())
/// ```
#[inline]
pub fn reciprocal(format: Format, image: &[u8], n: u32, x: u64) -> Result<Ulps, Refused> {
    served(yildegga_sys::reciprocal(format.numbers(), image, n, x)).map(Ulps)
}
