//! The declarations of `libyildegga.a`, each as a safe function over slices. The crate `yildegga` is the one to use;
//! this is the one file with unsafe code.
//!
//! # Why each call is sound
//!
//! The functions of the archive are proved to keep within the slice that they are lent, at every argument. The proof
//! takes this of a slice, and a Rust slice has it:
//!
//! - Pointer and length belong together: the bytes may be read, and for [`build`] written, until the call returns. Each
//!   function below passes the pointer and the length of one slice, whose borrow outlives the call.
//! - Nobody else writes to bytes that are lent for reading, and nobody else touches those lent for writing: `&[u8]` and
//!   `&mut [u8]` say so.
//! - The pointer of an empty slice, which Rust leaves dangling, is never followed: every image has a byte or more, so
//!   an empty slice is turned back before any byte is read.
//!
//! The functions keep no pointer, have no state, call nothing outside the archive but the C library's `memset`, and do
//! not unwind; bytes are answered as numbers. They leave the rounding mode, and raise no flag of the floating-point
//! environment but inexact, which [`build`] may raise.
#![deny(missing_docs)]
#![deny(clippy::undocumented_unsafe_blocks)]

#[cfg(not(all(target_arch = "x86_64", target_os = "linux", target_pointer_width = "64")))]
compile_error!("libyildegga.a is made for Linux on x86-64");

/// The table that a call is asked for, `yildegga_format`: its precision, its form by number, and its guard bits.
#[repr(C)]
#[derive(Clone, Copy, Debug, PartialEq, Eq)]
pub struct Format {
    /// The precision k.
    pub precision: u32,
    /// [`PLAIN_WORDS`], or any other number for full words.
    pub form: u32,
    /// The table guard bits a.
    pub table_guard_bits: u32,
    /// The input guard bits b.
    pub input_guard_bits: u32,
}

/// The form of plain words, by its number.
pub const PLAIN_WORDS: u32 = 0;
/// The form of full words, by its number.
pub const FULL_WORDS: u32 = 1;

/// What a call answers: `yildegga_done`, `yildegga_node_read` and `yildegga_reciprocal_given`, which have one layout.
#[repr(C)]
#[derive(Clone, Copy, Debug, PartialEq, Eq)]
pub struct Answer {
    /// 0 where the call is served, else the number of the refusal.
    pub number: u32,
    /// The lowest node whose word is wrong in refusal 6, the lowest byte with a set bit behind the last word in refusal
    /// 7, else 0.
    pub place: u64,
    /// The node in table units, the reciprocal in ulps, or 0.
    pub value: u64,
}

/// A count of table units, `yildegga_table_units`.
#[repr(C)]
#[derive(Clone, Copy, Debug, PartialEq, Eq)]
pub struct TableUnits {
    /// How many they are.
    pub count: u64,
}

/// The bytes `offset` to `offset + count - 1` of the caller's image, `yildegga_part`; 0 and 0 where none are shown.
#[repr(C)]
#[derive(Clone, Copy, Debug, PartialEq, Eq)]
pub struct Part {
    /// The number of the first byte.
    pub offset: usize,
    /// How many they are.
    pub count: usize,
}

extern "C" {
    fn yildegga_image_length(format: Format) -> usize;
    fn yildegga_build(format: Format, image: *mut u8, length: usize) -> Answer;
    fn yildegga_check(format: Format, image: *const u8, length: usize) -> Answer;
    fn yildegga_node(format: Format, image: *const u8, length: usize, j: u32) -> Answer;
    fn yildegga_node_8(j: u32) -> TableUnits;
    fn yildegga_word_bytes(format: Format, image: *const u8, length: usize, j: u32) -> Part;
    fn yildegga_reciprocal(format: Format, image: *const u8, length: usize, n: u32, x: u64) -> Answer;
}

/// The bytes of the image, 0 where refusal 1 or 18 applies.
#[inline]
pub fn image_length(format: Format) -> usize {
    // SAFETY: it takes numbers alone.
    unsafe { yildegga_image_length(format) }
}

/// Writes the image at the front of the buffer, and zeros behind it to the end.
#[inline]
pub fn build(format: Format, image: &mut [u8]) -> Answer {
    // SAFETY: pointer and length are those of one slice, which is lent for writing until the call returns.
    unsafe { yildegga_build(format, image.as_mut_ptr(), image.len()) }
}

/// Whether every word of the image is the construction's and every bit behind them is zero.
#[inline]
pub fn check(format: Format, image: &[u8]) -> Answer {
    // SAFETY: pointer and length are those of one slice.
    unsafe { yildegga_check(format, image.as_ptr(), image.len()) }
}

/// The value of node j, in table units.
#[inline]
pub fn node(format: Format, image: &[u8], j: u32) -> Answer {
    // SAFETY: pointer and length are those of one slice.
    unsafe { yildegga_node(format, image.as_ptr(), image.len(), j) }
}

/// Node j of precision 8 with two table guard bits, by the list of constants.
#[inline]
pub fn node_8(j: u32) -> TableUnits {
    // SAFETY: it takes a number alone.
    unsafe { yildegga_node_8(j) }
}

/// Where the word of node j stands in the image.
#[inline]
pub fn word_bytes(format: Format, image: &[u8], j: u32) -> Part {
    // SAFETY: pointer and length are those of one slice.
    unsafe { yildegga_word_bytes(format, image.as_ptr(), image.len(), j) }
}

/// The reciprocal of the operand x, which has n fraction bits, in ulps.
#[inline]
pub fn reciprocal(format: Format, image: &[u8], n: u32, x: u64) -> Answer {
    // SAFETY: pointer and length are those of one slice.
    unsafe { yildegga_reciprocal(format, image.as_ptr(), image.len(), n, x) }
}
