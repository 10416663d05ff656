//! The two units. A count of the one is never taken for a count of the other.

/// A count of table units, each 1 / 2^(2k+a+1), where a are the table guard bits: the value of a node.
///
/// A count of table units is never accepted as a count of ulps:
///
/// ```
/// let value: yildegga::TableUnits = yildegga::node(yildegga::Format::plain(2), &[0x02, 0x75, 0x8A], 1)?;
/// assert_eq!(value.0, 103);
/// # Ok::<(), yildegga::Refused>(())
/// ```
/// ```compile_fail
/// let value: yildegga::Ulps = yildegga::node(yildegga::Format::plain(2), &[0x02, 0x75, 0x8A], 1)?;
/// # Ok::<(), yildegga::Refused>(())
/// ```
#[derive(Clone, Copy, Debug, PartialEq, Eq, PartialOrd, Ord, Hash)]
pub struct TableUnits(pub u64);

/// A count of ulps, each 1 / 2^(2k+1): a reciprocal. How many table units that is,
/// [`Format::table_units_in_ulp`](crate::Format::table_units_in_ulp) says.
///
/// ```
/// // 2^7 / 160 is 0.8. One ulp is 1 / 2^5 at precision 2, so 25 ulps are 0.78125.
/// let given: yildegga::Ulps = yildegga::reciprocal(yildegga::Format::plain(2), &[0x02, 0x75, 0x8A], 7, 160)?;
/// assert_eq!(given.0, 25);
/// # Ok::<(), yildegga::Refused>(())
/// ```
#[derive(Clone, Copy, Debug, PartialEq, Eq, PartialOrd, Ord, Hash)]
pub struct Ulps(pub u64);
