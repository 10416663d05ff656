//! What a call that turns its caller back answers.
use std::error::Error;
use std::fmt;

use yildegga_sys::Answer;

/// Why a call is turned back. Where several apply, the first in checking order is given: 1, 18, 2, 3, and so on to 7.
/// They are listed here in this order, and have no other: their numbers are names.
///
/// Refusals may be added: a `match` on one has an arm for those that it does not name.
///
/// ```
/// use yildegga::{Format, Refusal};
/// // The precision and the fraction bits both break a limit.
/// let refused = yildegga::reciprocal(Format::plain(13), &[], 99, 0).unwrap_err();
/// assert_eq!(refused.refusal(), Refusal::Precision);
///
/// // The guard bits and the buffer: 18 is tested before 2.
/// let refused = yildegga::check(Format::plain(12).with_guard_bits(5, 3), &[]).unwrap_err();
/// assert_eq!(refused.refusal(), Refusal::GuardBits);
/// ```
#[derive(Clone, Copy, Debug, PartialEq, Eq, Hash)]
#[non_exhaustive]
#[repr(u32)]
pub enum Refusal {
    /// The precision is below 1 or above 12.
    Precision = 1,
    /// The table guard bits are not 2 to 4, or the input guard bits not 3 to 5, also in a call that has no use for
    /// them.
    GuardBits = 18,
    /// The buffer is shorter than the image of that format.
    ShortBuffer = 2,
    /// The node number is above 2^k.
    NodeNumber = 3,
    /// The fraction bits are fewer than 1 or more than 63.
    FractionBits = 4,
    /// The operand is not from 2^n to 2^(n+1) - 1.
    NotNormalised = 5,
    /// A word that the call reads is not the construction's.
    WrongWord = 6,
    /// A filling bit or a byte past the image is not zero.
    TailNotZero = 7,
}

impl Refusal {
    /// The number of the refusal, 1 to 7 or 18.
    ///
    /// ```
    /// assert_eq!(yildegga::Refusal::WrongWord.number(), 6);
    /// assert_eq!(yildegga::Refusal::GuardBits.number(), 18);
    /// ```
    #[inline]
    pub const fn number(self) -> u32 {
        self as u32
    }
}

impl fmt::Display for Refusal {
    fn fmt(&self, f: &mut fmt::Formatter<'_>) -> fmt::Result {
        f.write_str(match self {
            Refusal::Precision => "the precision is below 1 or above 12",
            Refusal::GuardBits => "the table guard bits are not 2 to 4, or the input guard bits not 3 to 5",
            Refusal::ShortBuffer => "the buffer is shorter than the image",
            Refusal::NodeNumber => "the node number is above 2^k",
            Refusal::FractionBits => "the fraction bits are fewer than 1 or more than 63",
            Refusal::NotNormalised => "the operand is not from 2^n to 2^(n+1) - 1",
            Refusal::WrongWord => "the word is not the construction's",
            Refusal::TailNotZero => "a filling bit or a byte past the image is not zero",
        })
    }
}

/// A call that was turned back: the number of the refusal and its place. Every lent byte is as it was.
///
/// ```
/// use yildegga::Format;
/// // The last bit of the image is wrong, and with it the word of node 3.
/// let refused = yildegga::check(Format::plain(2), &[0x02, 0x75, 0x8B]).unwrap_err();
/// assert_eq!(refused.to_string(), "refusal 6 at node 3: the word is not the construction's");
///
/// // The image is right, and of the two bytes past it the second is not zero.
/// let refused = yildegga::check(Format::plain(2), &[0x02, 0x75, 0x8A, 0x00, 0x01]).unwrap_err();
/// assert_eq!(refused.to_string(), "refusal 7 at byte 4: a filling bit or a byte past the image is not zero");
/// ```
#[derive(Clone, Copy, Debug, PartialEq, Eq, Hash)]
pub struct Refused {
    refusal: Refusal,
    place: u64,
}

impl Refused {
    /// Which refusal it is.
    ///
    /// ```
    /// use yildegga::{Format, Refusal};
    /// assert_eq!(yildegga::check(Format::plain(2), &[]).unwrap_err().refusal(), Refusal::ShortBuffer);
    /// ```
    #[inline]
    pub const fn refusal(&self) -> Refusal {
        self.refusal
    }

    /// The number of the refusal, 1 to 7 or 18.
    ///
    /// ```
    /// use yildegga::Format;
    /// assert_eq!(yildegga::check(Format::plain(2), &[]).unwrap_err().number(), 2);
    /// ```
    #[inline]
    pub const fn number(&self) -> u32 {
        self.refusal.number()
    }

    /// In refusal 6 the lowest node whose word was read and is wrong, in refusal 7 the number of the lowest byte with a
    /// set bit behind the last word, counted from 0 at the buffer's start, and 0 in the others.
    ///
    /// ```
    /// use yildegga::Format;
    /// assert_eq!(yildegga::check(Format::plain(2), &[0x02, 0x75, 0x8B]).unwrap_err().place(), 3);
    /// assert_eq!(yildegga::check(Format::plain(2), &[0x02, 0x75, 0x8A, 0x00, 0x01]).unwrap_err().place(), 4);
    /// assert_eq!(yildegga::check(Format::full(1), &[0x81, 0x64, 0x01]).unwrap_err().place(), 2); // a filling bit
    /// assert_eq!(yildegga::check(Format::plain(2), &[]).unwrap_err().place(), 0);
    /// ```
    #[inline]
    pub const fn place(&self) -> u64 {
        self.place
    }
}

impl fmt::Display for Refused {
    fn fmt(&self, f: &mut fmt::Formatter<'_>) -> fmt::Result {
        write!(f, "refusal {}", self.number())?;
        match self.refusal {
            Refusal::WrongWord => write!(f, " at node {}", self.place)?,
            Refusal::TailNotZero => write!(f, " at byte {}", self.place)?,
            _ => {}
        }
        write!(f, ": {}", self.refusal)
    }
}

impl Error for Refused {}

/// The value of a served call, or the refusal.
#[inline]
pub(crate) fn served(answer: Answer) -> Result<u64, Refused> {
    if answer.number == 0 {
        Ok(answer.value)
    } else {
        Err(refused(answer.number, answer.place))
    }
}

/// Apart, so that a call that is served has one test to pass.
#[cold]
fn refused(number: u32, place: u64) -> Refused {
    let refusal = match number {
        1 => Refusal::Precision,
        18 => Refusal::GuardBits,
        2 => Refusal::ShortBuffer,
        3 => Refusal::NodeNumber,
        4 => Refusal::FractionBits,
        5 => Refusal::NotNormalised,
        6 => Refusal::WrongWord,
        7 => Refusal::TailNotZero,
        _ => unreachable!("the library is proved to answer by no number but 0 to 7 and 18: {number}"),
    };
    Refused { refusal, place }
}
