//! The description of the table that a call is asked for.
use crate::limits::{last_node, GREATEST_INPUT_GUARD_BITS, GREATEST_TABLE_GUARD_BITS, LEAST_INPUT_GUARD_BITS, LEAST_TABLE_GUARD_BITS};

/// How the words of an image hold the nodes. In either form zero bits, the filling bits, follow the last word to its
/// byte's end, where it does not end with one.
///
/// ```
/// use yildegga::{Form, Format};
/// assert_eq!((Format::plain(2).form(), Format::full(2).form()), (Form::Plain, Form::Full));
/// ```
///
/// Forms may be added: a `match` on one has an arm for those that it does not name.
#[derive(Clone, Copy, Debug, PartialEq, Eq, Hash)]
#[non_exhaustive]
pub enum Form {
    /// Words of 2k + a bits, where a are the table guard bits, which leave the leading one of a node out, for the nodes
    /// below 2^k; node 2^k is implied.
    Plain,
    /// Words of 2k + a + 2 bits, which hold the node itself, for every node from 0 to 2^k.
    Full,
}

/// A table as it is asked for: its precision k, the form of its words, its table guard bits a and its input guard bits
/// b. Any numbers can be asked for; k from 1 to 12, a from 2 to 4 and b from 3 to 5 are served.
///
/// ```
/// use yildegga::{Format, TableUnits};
/// let (plain, full) = ([0x02, 0x75, 0x8A], [0x80, 0x67, 0x56, 0x4A, 0x40]); // the image of precision 2 in each form
/// assert_eq!(yildegga::node(Format::plain(2), &plain, 1)?, TableUnits(103));
/// assert_eq!(yildegga::node(Format::full(2), &full, 1)?, TableUnits(0x67));
/// # Ok::<(), yildegga::Refused>(())
/// ```
///
/// A number alone is no format:
///
/// ```compile_fail
/// yildegga::check(2, &[0x02, 0x75, 0x8A]);
/// ```
#[derive(Clone, Copy, Debug, PartialEq, Eq, Hash)]
pub struct Format {
    precision: u32,
    form: Form,
    table_guard_bits: u32,
    input_guard_bits: u32,
}

impl Format {
    /// The bytes of the longest image of all: a buffer of this length serves every format.
    ///
    /// ```
    /// use yildegga::{Format, GREATEST_INPUT_GUARD_BITS, GREATEST_PRECISION, GREATEST_TABLE_GUARD_BITS};
    /// let longest = Format::full(GREATEST_PRECISION);
    /// let longest = longest.with_guard_bits(GREATEST_TABLE_GUARD_BITS, GREATEST_INPUT_GUARD_BITS);
    /// assert_eq!(longest.image_length(), Some(Format::LONGEST));
    /// ```
    pub const LONGEST: usize = 15364;

    /// The bytes of the longest plain image with two table guard bits, that of the greatest precision.
    ///
    /// ```
    /// use yildegga::{Format, GREATEST_PRECISION};
    /// assert_eq!(Format::plain(GREATEST_PRECISION).image_length(), Some(Format::LONGEST_PLAIN));
    /// ```
    pub const LONGEST_PLAIN: usize = 13312;

    /// The bytes of the longest full image with two table guard bits, that of the greatest precision: a buffer of this
    /// length serves every format with two.
    ///
    /// ```
    /// use yildegga::{Format, GREATEST_PRECISION};
    /// assert_eq!(Format::full(GREATEST_PRECISION).image_length(), Some(Format::LONGEST_FULL));
    /// ```
    pub const LONGEST_FULL: usize = 14340;

    /// Plain words of precision `k`, with two table guard bits and three input guard bits.
    ///
    /// ```
    /// let mut image = [0; 3];
    /// yildegga::build(yildegga::Format::plain(2), &mut image)?;
    /// assert_eq!(image, [0x02, 0x75, 0x8A]);
    /// # Ok::<(), yildegga::Refused>(())
    /// ```
    #[inline]
    pub const fn plain(k: u32) -> Self {
        Format { precision: k, form: Form::Plain, table_guard_bits: 2, input_guard_bits: 3 }
    }

    /// Full words of precision `k`, with two table guard bits and three input guard bits.
    ///
    /// ```
    /// let mut image = [0; 5];
    /// yildegga::build(yildegga::Format::full(2), &mut image)?;
    /// assert_eq!(image, [128, 103, 86, 74, 64]); // the words of precision 2 have 8 bits
    /// # Ok::<(), yildegga::Refused>(())
    /// ```
    #[inline]
    pub const fn full(k: u32) -> Self {
        Format { precision: k, form: Form::Full, table_guard_bits: 2, input_guard_bits: 3 }
    }

    /// The same precision and form with other guard bits: those of the table, a, make a table unit finer than an ulp,
    /// and those of the input, b, are fraction bits of an operand that are looked at beyond 2k.
    ///
    /// ```
    /// use yildegga::{Format, TableUnits, Ulps};
    /// // Three table guard bits: 64, 43 and an implied 32 where two give 32, 22 and 16. The words are 0 and 11.
    /// let one = Format::plain(1).with_guard_bits(3, 3);
    /// let mut image = [0xFF; 2];
    /// yildegga::build(one, &mut image)?;
    /// assert_eq!(image, [0b00000_010, 0b11_000000]);
    /// assert_eq!(yildegga::node(one, &image, 1)?, TableUnits(43));
    ///
    /// // Four input guard bits: six fraction bits of an operand are looked at, and the last one of 65 / 2^6 counts.
    /// let image = [0x06];
    /// let wider = Format::plain(1).with_guard_bits(2, 4);
    /// assert_eq!(yildegga::reciprocal(Format::plain(1), &image, 6, 65)?, Ulps(8));
    /// assert_eq!(yildegga::reciprocal(wider, &image, 6, 65)?, Ulps(7));
    ///
    /// // Guard bits that are not served are turned back by a refusal of their own.
    /// assert_eq!(yildegga::check(Format::plain(1).with_guard_bits(2, 6), &image).unwrap_err().number(), 18);
    /// # Ok::<(), yildegga::Refused>(())
    /// ```
    #[inline]
    pub const fn with_guard_bits(self, table: u32, input: u32) -> Self {
        Format { table_guard_bits: table, input_guard_bits: input, ..self }
    }

    /// The precision k.
    ///
    /// ```
    /// assert_eq!(yildegga::Format::full(2).precision(), 2);
    /// assert_eq!(yildegga::Format::plain(13).precision(), 13);
    /// ```
    #[inline]
    pub const fn precision(self) -> u32 {
        self.precision
    }

    /// The form of the words.
    ///
    /// ```
    /// use yildegga::{Form, Format};
    /// assert_eq!(Format::full(2).form(), Form::Full);
    /// assert_eq!(Format::full(2).with_guard_bits(4, 5).form(), Form::Full);
    /// ```
    #[inline]
    pub const fn form(self) -> Form {
        self.form
    }

    /// The table guard bits a.
    ///
    /// ```
    /// use yildegga::Format;
    /// assert_eq!(Format::plain(2).table_guard_bits(), 2);
    /// assert_eq!(Format::plain(2).with_guard_bits(4, 5).table_guard_bits(), 4);
    /// ```
    #[inline]
    pub const fn table_guard_bits(self) -> u32 {
        self.table_guard_bits
    }

    /// The input guard bits b.
    ///
    /// ```
    /// use yildegga::Format;
    /// assert_eq!(Format::plain(2).input_guard_bits(), 3);
    /// assert_eq!(Format::plain(2).with_guard_bits(4, 5).input_guard_bits(), 5);
    /// ```
    #[inline]
    pub const fn input_guard_bits(self) -> u32 {
        self.input_guard_bits
    }

    /// 2^k, where the format has a table: neither refusal 1 nor 18 applies.
    const fn last_node(self) -> Option<u32> {
        let (a, b) = (self.table_guard_bits, self.input_guard_bits);
        if LEAST_TABLE_GUARD_BITS <= a && a <= GREATEST_TABLE_GUARD_BITS && LEAST_INPUT_GUARD_BITS <= b && b <= GREATEST_INPUT_GUARD_BITS {
            last_node(self.precision)
        } else {
            None
        }
    }

    /// The table units in an ulp, 2^a; `None` where refusal 1 or 18 applies.
    ///
    /// ```
    /// use yildegga::{Format, TableUnits, Ulps};
    /// assert_eq!(Format::plain(2).table_units_in_ulp(), Some(4));
    /// assert_eq!(Format::plain(2).with_guard_bits(5, 3).table_units_in_ulp(), None);
    ///
    /// // At a node the reciprocal is the node, in ulps rounded down: here 43 units of an eighth.
    /// let (one, image) = (Format::plain(1).with_guard_bits(3, 3), [0x02, 0xC0]);
    /// assert_eq!(one.table_units_in_ulp(), Some(8));
    /// assert_eq!(yildegga::node(one, &image, 1)?, TableUnits(43));
    /// assert_eq!(yildegga::reciprocal(one, &image, 1, 3)?, Ulps(43 / 8));
    /// # Ok::<(), yildegga::Refused>(())
    /// ```
    pub const fn table_units_in_ulp(self) -> Option<u64> {
        match self.last_node() {
            None => None,
            Some(_) => Some(1 << self.table_guard_bits),
        }
    }

    /// The bits of a word, 2k + a plain and 2k + a + 2 full; `None` where refusal 1 or 18 applies.
    ///
    /// ```
    /// use yildegga::Format;
    /// assert_eq!((Format::plain(2).word_bits(), Format::full(2).word_bits()), (Some(6), Some(8)));
    /// assert_eq!(Format::full(2).with_guard_bits(4, 3).word_bits(), Some(10));
    /// assert_eq!(Format::full(13).word_bits(), None);
    /// ```
    pub const fn word_bits(self) -> Option<u32> {
        match (self.last_node(), self.form) {
            (None, _) => None,
            (Some(_), Form::Plain) => Some(2 * self.precision + self.table_guard_bits),
            (Some(_), Form::Full) => Some(2 * self.precision + self.table_guard_bits + 2),
        }
    }

    /// The words of the image, 2^k plain and 2^k + 1 full; `None` where refusal 1 or 18 applies.
    ///
    /// ```
    /// use yildegga::Format;
    /// assert_eq!((Format::plain(2).word_count(), Format::full(2).word_count()), (Some(4), Some(5)));
    /// assert_eq!(Format::plain(13).word_count(), None);
    /// assert_eq!(Format::plain(2).with_guard_bits(1, 3).word_count(), None);
    /// ```
    pub const fn word_count(self) -> Option<u32> {
        match (self.last_node(), self.form) {
            (None, _) => None,
            (Some(last), Form::Plain) => Some(last),
            (Some(last), Form::Full) => Some(last + 1),
        }
    }

    /// The bytes of the image, filling bits included; `None` where refusal 1 or 18 applies.
    ///
    /// ```
    /// use yildegga::Format;
    /// assert_eq!((Format::plain(2).image_length(), Format::full(2).image_length()), (Some(3), Some(5)));
    /// assert_eq!(Format::plain(2).with_guard_bits(3, 3).image_length(), Some(4)); // four words of seven bits
    /// assert_eq!(Format::plain(13).image_length(), None);
    /// assert_eq!(Format::plain(2).with_guard_bits(3, 6).image_length(), None);
    ///
    /// // The length of an array.
    /// const LENGTH: usize = Format::full(8).with_guard_bits(4, 5).image_length().unwrap();
    /// let mut image = [0; LENGTH];
    /// yildegga::build(Format::full(8).with_guard_bits(4, 5), &mut image)?;
    /// # Ok::<(), yildegga::Refused>(())
    /// ```
    pub const fn image_length(self) -> Option<usize> {
        match (self.word_count(), self.word_bits()) {
            (Some(count), Some(bits)) => Some((count * bits).div_ceil(8) as usize),
            _ => None,
        }
    }

    /// The numbers by which the archive is asked.
    #[inline]
    pub(crate) const fn numbers(self) -> yildegga_sys::Format {
        let form = match self.form {
            Form::Plain => yildegga_sys::PLAIN_WORDS,
            Form::Full => yildegga_sys::FULL_WORDS,
        };
        yildegga_sys::Format {
            precision: self.precision,
            form,
            table_guard_bits: self.table_guard_bits,
            input_guard_bits: self.input_guard_bits,
        }
    }
}
