//! The calls on an image.
use std::ops::Range;

use crate::format::Format;
use crate::refusal::{served, Refused};
use crate::units::TableUnits;

/// Makes the buffer a full ROM of the format, whatever it held: the image at the front, and zeros to the end.
///
/// Turned back by refusals 1, 18 and 2.
///
/// It computes with doubles, the one call that does. The bytes are the same in every rounding mode, and the mode stays
/// as it is. The inexact flag may be raised: who has made that trap has to mask it for the call.
///
/// ```
/// use yildegga::Format;
/// let mut image = [0xFF; 3];
/// yildegga::build(Format::plain(2), &mut image)?;
/// assert_eq!(image, [0x02, 0x75, 0x8A]);
///
/// // Full words: of precision 1 they have 6 bits, and six filling bits follow the last one.
/// yildegga::build(Format::full(1), &mut image)?;
/// assert_eq!(image, [0b100000_01, 0b0110_0100, 0b00_000000]);
///
/// // A ROM that is longer than the image.
/// let mut rom = [0xFF; 4];
/// yildegga::build(Format::plain(2), &mut rom)?;
/// assert_eq!(rom, [0x02, 0x75, 0x8A, 0x00]);
/// yildegga::check(Format::plain(2), &rom)?;
///
/// // A buffer that is too short is left as it was.
/// let mut short = [0xFF; 4];
/// assert_eq!(yildegga::build(Format::full(2), &mut short).unwrap_err().number(), 2);
/// assert_eq!(short, [0xFF; 4]);
/// # Ok::<(), yildegga::Refused>(())
/// ```
#[inline]
pub fn build(format: Format, image: &mut [u8]) -> Result<(), Refused> {
    served(yildegga_sys::build(format.numbers(), image)).map(|_| ())
}

/// Whether the buffer is a full ROM of the format: every word of the image is the construction's, and every filling bit
/// and every byte past the image is zero.
///
/// Turned back by refusals 1, 18, 2, 6 and 7; the place of 6 is the lowest node whose word is wrong, and that of 7,
/// where every word is right, the lowest byte with a set bit behind the last word: the image's last byte, where a
/// filling bit is set, or else a byte past the image.
///
/// ```
/// use yildegga::Format;
/// let two = Format::plain(2);
/// yildegga::check(two, &[0x02, 0x75, 0x8A])?;
/// yildegga::check(two, &[0x02, 0x75, 0x8A, 0x00])?;
///
/// let refused = yildegga::check(two, &[0x00, 0x00, 0x00]).unwrap_err();
/// assert_eq!((refused.number(), refused.place()), (6, 1));
///
/// let refused = yildegga::check(two, &[0x02, 0x75, 0x8A, 0x00, 0x01]).unwrap_err();
/// assert_eq!((refused.number(), refused.place()), (7, 4));
///
/// // A wrong word is named before a wrong tail.
/// let refused = yildegga::check(two, &[0x02, 0x75, 0x8B, 0x01]).unwrap_err();
/// assert_eq!((refused.number(), refused.place()), (6, 3));
///
/// // Node 2^k has a full word, and a set filling bit is named by the image's last byte.
/// let one = Format::full(1);
/// yildegga::check(one, &[0x81, 0x64, 0x00, 0x00])?;
/// let refused = yildegga::check(one, &[0x81, 0x64, 0x40, 0x00]).unwrap_err();
/// assert_eq!((refused.number(), refused.place()), (6, 2));
/// let refused = yildegga::check(one, &[0x81, 0x64, 0x01, 0x01]).unwrap_err();
/// assert_eq!((refused.number(), refused.place()), (7, 2));
///
/// // Plain words have filling bits too where their bits do not fill the last byte: here the two words have ten bits.
/// let one = Format::plain(1).with_guard_bits(3, 3);
/// yildegga::check(one, &[0x02, 0xC0])?;
/// let refused = yildegga::check(one, &[0x02, 0xC1]).unwrap_err();
/// assert_eq!((refused.number(), refused.place()), (7, 1));
/// # Ok::<(), yildegga::Refused>(())
/// ```
#[inline]
pub fn check(format: Format, image: &[u8]) -> Result<(), Refused> {
    served(yildegga_sys::check(format.numbers(), image)).map(|_| ())
}

/// The value of node `j`, from 0 to 2^k: 2^(3k+a+1) / (2^k + j), rounded up, in table units, where a are the table
/// guard bits.
///
/// Turned back by refusals 1, 18, 2, 3 and 6. The answer depends on the word of node `j` and on no other; node 2^k has
/// no plain word, and is implied.
///
/// ```
/// use yildegga::{Format, TableUnits};
/// let (two, image) = (Format::plain(2), [0x02, 0x75, 0x8A]);
/// assert_eq!(yildegga::node(two, &image, 0)?, TableUnits(128));
/// assert_eq!(yildegga::node(two, &image, 4)?, TableUnits(64));
/// assert_eq!(yildegga::node(two, &image, 5).unwrap_err().number(), 3);
///
/// // The full word of node 2^k is read like the others.
/// let (two, image) = (Format::full(2), [0x80, 0x67, 0x56, 0x4A, 0x41]);
/// assert_eq!(yildegga::node(two, &image, 3)?, TableUnits(0x4A));
/// let refused = yildegga::node(two, &image, 4).unwrap_err();
/// assert_eq!((refused.number(), refused.place()), (6, 4));
///
/// // What stands behind the last plain word is not node 2^k, also where it fills the byte of that word.
/// let one = Format::plain(1).with_guard_bits(3, 3);
/// assert_eq!(yildegga::node(one, &[0x02, 0xFF], 2)?, TableUnits(32));
/// # Ok::<(), yildegga::Refused>(())
/// ```
#[inline]
pub fn node(format: Format, image: &[u8], j: u32) -> Result<TableUnits, Refused> {
    served(yildegga_sys::node(format.numbers(), image, j)).map(TableUnits)
}

/// The bytes that hold the word of node `j`, as a part of the caller's image. The word is not judged.
///
/// The part is empty exactly where refusal 1, 18 or 2 applies or node `j` has no word: where `j` is above 2^k - 1
/// plain, above 2^k full.
///
/// ```
/// use yildegga::Format;
/// let image = [0x02, 0x75, 0x8A];
/// assert_eq!(yildegga::word_bytes(Format::plain(2), &image, 1), [0x02, 0x75]);
/// assert_eq!(yildegga::word_bytes(Format::plain(2), &image, 3), [0x8A]);
/// assert_eq!(yildegga::word_bytes(Format::plain(2), &image, 4), []); // node 2^k has no plain word
/// assert_eq!(yildegga::word_bytes(Format::plain(2), &image[..2], 1), []); // the buffer is too short
///
/// assert_eq!(yildegga::word_bytes(Format::full(2), &[0x80, 0x67, 0x56, 0x4A, 0x40], 4), [0x40]);
/// let no_guard_bits = Format::full(2).with_guard_bits(2, 6);
/// assert_eq!(yildegga::word_bytes(no_guard_bits, &[0x80, 0x67, 0x56, 0x4A, 0x40], 4), []); // refusal 18
/// ```
#[inline]
pub fn word_bytes(format: Format, image: &[u8], j: u32) -> &[u8] {
    &image[word_range(format, image, j)]
}

/// Where in the image the bytes of [`word_bytes`] stand, 0 to 0 where there are none.
///
/// ```
/// use yildegga::Format;
/// let image = [0x02, 0x75, 0x8A];
/// assert_eq!(yildegga::word_range(Format::plain(2), &image, 1), 0..2);
/// assert_eq!(yildegga::word_range(Format::plain(2), &image, 3), 2..3);
/// assert_eq!(yildegga::word_range(Format::plain(2), &image, 4), 0..0);
/// assert_eq!(yildegga::word_range(Format::full(1), &[0x81, 0x64, 0x00], 2), 1..3);
/// ```
#[inline]
pub fn word_range(format: Format, image: &[u8], j: u32) -> Range<usize> {
    let part = yildegga_sys::word_bytes(format.numbers(), image, j);
    part.offset..part.offset + part.count
}
