//! The bound table.
use crate::format::Format;
use crate::refusal::Refused;
use crate::units::{TableUnits, Ulps};

/// A lent image and its format, kept together for many operands.
///
/// ```
/// use yildegga::{BoundTable, Format, Ulps};
/// let image = [0x02, 0x75, 0x8A];
/// let table = BoundTable::new(Format::plain(2), &image);
/// let given: Result<Vec<Ulps>, _> = [128, 129, 135].into_iter().map(|x| table.reciprocal(7, x)).collect();
/// assert_eq!(given?, [Ulps(32), Ulps(31), Ulps(30)]);
/// # Ok::<(), yildegga::Refused>(())
/// ```
///
/// The image cannot be changed while a table is bound to it:
///
/// ```compile_fail
/// let mut image = [0x02, 0x75, 0x8A];
/// let table = yildegga::BoundTable::new(yildegga::Format::plain(2), &image);
/// image[0] = 0;
/// table.node(0);
/// ```
#[derive(Clone, Copy, Debug)]
pub struct BoundTable<'a> {
    format: Format,
    image: &'a [u8],
}

impl<'a> BoundTable<'a> {
    /// Binds an image. It never refuses: what is wrong with the format or the image, the calls through the table say.
    ///
    /// ```
    /// use yildegga::{BoundTable, Format};
    /// let table = BoundTable::new(Format::full(13), &[]);
    /// assert_eq!(table.node(0).unwrap_err().number(), 1);
    /// ```
    #[inline]
    pub const fn new(format: Format, image: &'a [u8]) -> Self {
        BoundTable { format, image }
    }

    /// The format that was bound.
    ///
    /// ```
    /// use yildegga::{BoundTable, Format};
    /// assert_eq!(BoundTable::new(Format::full(13), &[]).format(), Format::full(13));
    /// ```
    #[inline]
    pub const fn format(&self) -> Format {
        self.format
    }

    /// The image that was bound.
    ///
    /// ```
    /// use yildegga::{BoundTable, Format};
    /// let image = [0x02, 0x75, 0x8A];
    /// assert_eq!(BoundTable::new(Format::plain(2), &image).image(), image);
    /// ```
    #[inline]
    pub const fn image(&self) -> &'a [u8] {
        self.image
    }

    /// What [`node`](crate::node()) gives with this format and image.
    ///
    /// ```
    /// use yildegga::{BoundTable, Format, TableUnits};
    /// let table = BoundTable::new(Format::plain(2), &[0x02, 0x75, 0x8A]);
    /// assert_eq!(table.node(1)?, TableUnits(103));
    /// assert_eq!(table.node(5).unwrap_err().number(), 3);
    /// # Ok::<(), yildegga::Refused>(())
    /// ```
    #[inline]
    pub fn node(&self, j: u32) -> Result<TableUnits, Refused> {
        crate::node(self.format, self.image, j)
    }

    /// What [`reciprocal`](crate::reciprocal()) gives with this format and image.
    ///
    /// ```
    /// use yildegga::{BoundTable, Format, Ulps};
    /// let table = BoundTable::new(Format::plain(2), &[0x02, 0x75, 0x8B]);
    /// assert_eq!(table.reciprocal(7, 135)?, Ulps(30));
    ///
    /// // 223 lies between nodes 2 and 3, and the word of node 3 is wrong.
    /// let refused = table.reciprocal(7, 223).unwrap_err();
    /// assert_eq!((refused.number(), refused.place()), (6, 3));
    /// # Ok::<(), yildegga::Refused>(())
    /// ```
    #[inline]
    pub fn reciprocal(&self, n: u32, x: u64) -> Result<Ulps, Refused> {
        crate::reciprocal(self.format, self.image, n, x)
    }
}
