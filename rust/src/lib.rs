//! Reciprocal tables for graphics hardware, and the reciprocals taken from them, in which every word and every last
//! place is proved.
//!
//! A table has a precision k from 1 to 12. Its image, a string of bit-packed words, stands in bytes that the caller
//! lends, and the words have one of two forms. A plain word holds a node without its leading one, and the last node is
//! implied; a full word holds the node itself, for every node. A [`Format`] says both, and the guard bits:
//! [`Format::plain`]`(k)` or [`Format::full`]`(k)`; and the calls on an image take it with those bytes. These may be
//! more than the image has: those past it are the tail, and an image with zeros to the end of the bytes is a full ROM.
//!
//! The table guard bits, a from 2 to 4, make a table unit finer than an ulp: it is 1 / 2^(2k+a+1). With the input guard
//! bits, b from 3 to 5, the first 2k + b fraction bits of an operand are looked at. A format has two and three of them
//! where [`Format::with_guard_bits`] orders no others.
//!
//! - [`build`] writes a full ROM, the image and zeros behind it; [`Format::image_length`] says how long the image is;
//! - [`check`] tells whether the bytes are a full ROM, and names the lowest node whose word is wrong, or else the
//!   lowest byte with a set bit behind the last word;
//! - [`node`] reads one node, [`word_bytes`] and [`word_range`] show the bytes that hold its word;
//! - [`node_8`] gives a node of precision 8, with two table guard bits, without an image;
//! - [`reciprocal`] gives the reciprocal of an operand of 1 to 63 fraction bits, less than one ulp from the exact one;
//! - a [`BoundTable`] keeps an image and its format together for many operands.
//!
//! The tail, and the filling bits that may follow the last word to its byte's end, are for [`build`] and [`check`]: the
//! other calls give the same whatever they hold, but that the bytes of the last word show its filling bits as they are.
//!
//! No call has a precondition: whatever breaks a limit is turned back as a [`Refused`], with a number and a place, and
//! leaves every byte as it was. No call panics, allocates or keeps anything.
//!
//! ```
//! use yildegga::Format;
//!
//! // The plain image of precision 2, and the reciprocal of 135 / 2^7 in ulps of 1 / 2^5.
//! let two = Format::plain(2);
//! let mut image = [0; 3];
//! yildegga::build(two, &mut image)?;
//! assert_eq!(image, [0x02, 0x75, 0x8A]);
//! assert_eq!(yildegga::reciprocal(two, &image, 7, 135)?, yildegga::Ulps(30));
//!
//! // A ROM of 8 bytes, the same image with zeros to the end, and one of these bytes worn.
//! let mut rom = [0xFF; 8];
//! yildegga::build(two, &mut rom)?;
//! assert_eq!(rom, [0x02, 0x75, 0x8A, 0, 0, 0, 0, 0]);
//! rom[6] = 1;
//! let refused = yildegga::check(two, &rom).unwrap_err();
//! assert_eq!((refused.number(), refused.place()), (7, 6));
//!
//! // The full image of the same precision: five words of 8 bits, which are the nodes.
//! yildegga::build(Format::full(2), &mut rom)?;
//! assert_eq!(rom, [128, 103, 86, 74, 64, 0, 0, 0]);
//!
//! // The same with four table guard bits: the nodes in units a quarter as large, in five words of 10 bits.
//! let finer = Format::full(2).with_guard_bits(4, 3);
//! yildegga::build(finer, &mut rom)?;
//! assert_eq!(yildegga::node(finer, &rom, 1)?, yildegga::TableUnits(410)); // 2^11 / 5, rounded up
//! assert_eq!(rom[..3], [0b10000000, 0b00_011001, 0b1010_0101]); // 512, 410 and four bits of 342
//!
//! // A caller's mistake is turned back.
//! let refused = yildegga::build(two, &mut image[..2]).unwrap_err();
//! assert_eq!(refused.number(), 2);
//! # Ok::<(), yildegga::Refused>(())
//! ```
//!
//! The calls are those of `libyildegga.a`, where each is proved to meet its contract on all inputs; this crate adds
//! slices, units and an error type.
#![forbid(unsafe_code)]
#![deny(missing_docs)]

mod bound;
mod eight;
mod format;
mod image;
mod limits;
mod operand;
mod refusal;
mod units;

pub use bound::BoundTable;
pub use eight::node_8;
pub use format::{Form, Format};
pub use image::{build, check, node, word_bytes, word_range};
pub use limits::{
    last_node, GREATEST_INPUT_GUARD_BITS, GREATEST_PRECISION, GREATEST_TABLE_GUARD_BITS, LEAST_FRACTION_BITS, LEAST_INPUT_GUARD_BITS,
    LEAST_PRECISION, LEAST_TABLE_GUARD_BITS, MOST_FRACTION_BITS,
};
pub use operand::reciprocal;
pub use refusal::{Refusal, Refused};
pub use units::{TableUnits, Ulps};

/// The program of README.md, run with the examples of the documentation.
#[cfg(doctest)]
#[doc = include_str!("../README.md")]
struct Readme;
