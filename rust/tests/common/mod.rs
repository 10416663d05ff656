//! What the tests share.
#![allow(dead_code)] // each test takes what it needs

use yildegga::{Form, Format, Refused, Ulps};

/// The byte lengths of the plain images with two table guard bits, as docs/SCOPE.md lists them, and with three and
/// four: 2^k × (2k + a) / 8, rounded up.
const PLAIN_LENGTHS: [[usize; 12]; 3] = [
    [1, 3, 8, 20, 48, 112, 256, 576, 1280, 2816, 6144, 13312],
    [2, 4, 9, 22, 52, 120, 272, 608, 1344, 2944, 6400, 13824],
    [2, 4, 10, 24, 56, 128, 288, 640, 1408, 3072, 6656, 14336],
];
/// Those of the full images: (2^k + 1) × (2k + a + 2) / 8, rounded up.
const FULL_LENGTHS: [[usize; 12]; 3] = [
    [3, 5, 12, 26, 58, 130, 291, 643, 1411, 3075, 6660, 14340],
    [3, 6, 13, 28, 62, 139, 307, 675, 1475, 3204, 6916, 14852],
    [3, 7, 14, 30, 66, 147, 323, 707, 1539, 3332, 7172, 15364],
];

/// A precision in both forms, with two table guard bits and three input guard bits.
pub fn both(k: u32) -> [Format; 2] {
    [Format::plain(k), Format::full(k)]
}

/// Every precision in both forms, with the same.
pub fn formats() -> impl Iterator<Item = Format> {
    (1..=12).flat_map(both)
}

/// A format with each number of table guard bits and each of input guard bits.
pub fn guarded(format: Format) -> impl Iterator<Item = Format> {
    (2..=4).flat_map(move |table| (3..=5).map(move |input| format.with_guard_bits(table, input)))
}

/// Every format that is served.
pub fn every_format() -> impl Iterator<Item = Format> {
    formats().flat_map(guarded)
}

/// The bytes of an image.
pub fn length(format: Format) -> usize {
    let lengths = match format.form() {
        Form::Plain => PLAIN_LENGTHS,
        Form::Full => FULL_LENGTHS,
        other => panic!("the form {other:?} has no lengths here"),
    };
    lengths[format.table_guard_bits() as usize - 2][format.precision() as usize - 1]
}

/// How many words an image has.
pub fn words(format: Format) -> u32 {
    (1 << format.precision()) + u32::from(format.form() == Form::Full)
}

/// The bits of a word.
pub fn width(format: Format) -> usize {
    (2 * format.precision() + format.table_guard_bits()) as usize + if format.form() == Form::Full { 2 } else { 0 }
}

/// The bits that stand behind the last word in its byte.
pub fn filling(format: Format) -> usize {
    8 * length(format) - words(format) as usize * width(format)
}

/// The fraction bits of an operand that are looked at.
pub fn kept(format: Format) -> u32 {
    2 * format.precision() + format.input_guard_bits()
}

/// An answer as a chip gives it: the value, or number and place.
pub fn said<T>(answer: Result<T, Refused>) -> Result<T, (u32, u64)> {
    answer.map_err(|refused| (refused.number(), refused.place()))
}

/// The value of node j.
pub fn value(format: Format, j: u32) -> u64 {
    let k = format.precision();
    (1u64 << (3 * k + format.table_guard_bits() + 1)).div_ceil((1 << k) + u64::from(j))
}

/// R by the rule of docs/SCOPE.md, "The reciprocal", for an operand that keeps its limits: it is cut to as many
/// fraction bits as are looked at, or padded to them.
pub fn rule(format: Format, n: u32, x: u64) -> Ulps {
    let (k, kept) = (format.precision(), kept(format));
    let t = if n < kept { x << (kept - n) } else { x >> (n - kept) };
    let (i, f) = (t >> (kept - k), t % (1 << (kept - k)));
    let j = (i - (1 << k)) as u32;
    let (lower, upper) = (value(format, j), value(format, j + 1));
    Ulps(((lower << (kept - k)) - (lower - upper) * f) >> (kept - k + format.table_guard_bits()))
}

/// Whether R is less than an ulp off: R × X differs from 2^(n+2k+1) by less than X.
pub fn is_near(k: u32, n: u32, x: u64, r: Ulps) -> bool {
    (u128::from(r.0) * u128::from(x)).abs_diff(1 << (n + 2 * k + 1)) < x.into()
}

/// The image of a format.
pub fn image(format: Format) -> Vec<u8> {
    let mut image = vec![0; length(format)];
    yildegga::build(format, &mut image).unwrap();
    image
}
