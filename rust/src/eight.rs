//! The nodes of precision 8, which need no image.
use crate::units::TableUnits;

/// The value of node `j` of precision 8, from 0 to 256, out of the list of constants that the library carries: what
/// [`node`](crate::node()) reads from an image of precision 8 with two table guard bits, without an image. It is 0,
/// which no node is, where `j` is above 256.
///
/// ```
/// use yildegga::TableUnits;
/// assert_eq!(yildegga::node_8(0), TableUnits(524288));
/// assert_eq!(yildegga::node_8(1), TableUnits(522248)); // 2^27 / 257, rounded up
/// assert_eq!(yildegga::node_8(256), TableUnits(262144));
/// assert_eq!(yildegga::node_8(257), TableUnits(0));
/// ```
#[inline]
pub fn node_8(j: u32) -> TableUnits {
    TableUnits(yildegga_sys::node_8(j).count)
}
