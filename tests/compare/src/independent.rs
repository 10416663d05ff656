//! The independent implementation. It shares no code with the library and works by another method, from the words of the scope:
//! nodes are searched for, images are lists of single bits, what stands behind the words is the set of its bytes that are not zero, R is a
//! point on the line between two nodes, refusals are a list of tests in their order.
use crate::library::{Answer, Format, Part};
use std::collections::BTreeSet;
use std::ops::{Range, RangeInclusive};
use std::sync::OnceLock;

pub const LEAST: u32 = 1;
pub const GREATEST: u32 = 12;
/// The lengths of the plain images with two, three and four table guard bits, the first as they are listed in the scope, and those of the full
/// ones.
const LENGTHS: [[[usize; 12]; 3]; 2] = [
    [
        [1, 3, 8, 20, 48, 112, 256, 576, 1280, 2816, 6144, 13312],
        [2, 4, 9, 22, 52, 120, 272, 608, 1344, 2944, 6400, 13824],
        [2, 4, 10, 24, 56, 128, 288, 640, 1408, 3072, 6656, 14336],
    ],
    [
        [3, 5, 12, 26, 58, 130, 291, 643, 1411, 3075, 6660, 14340],
        [3, 6, 13, 28, 62, 139, 307, 675, 1475, 3204, 6916, 14852],
        [3, 7, 14, 30, 66, 147, 323, 707, 1539, 3332, 7172, 15364],
    ],
];
/// Numbers that C may hand over for a form: that of the plain one, and some of those of the full one.
pub const FORMS: [u32; 4] = [0, 1, 2, u32::MAX];
pub const LEAST_FRACTION_BITS: u32 = 1;
pub const MOST_FRACTION_BITS: u32 = 63;
/// The numbers of table and of input guard bits that are served.
pub const TABLE_GUARD_BITS: RangeInclusive<u32> = 2..=4;
pub const INPUT_GUARD_BITS: RangeInclusive<u32> = 3..=5;

pub fn is_precision(k: u32) -> bool {
    (LEAST..=GREATEST).contains(&k)
}

fn has_guard_bits(format: Format) -> bool {
    TABLE_GUARD_BITS.contains(&format.table_guard_bits) && INPUT_GUARD_BITS.contains(&format.input_guard_bits)
}

/// Whether a format has a table at all.
pub fn has_table(format: Format) -> bool {
    is_precision(format.precision) && has_guard_bits(format)
}

pub fn precisions() -> RangeInclusive<u32> {
    LEAST..=GREATEST
}

/// 2^exponent, and 2^90 where the exponent is above: no number that it is compared with comes near.
pub fn power(exponent: u32) -> u128 {
    1 << exponent.min(90)
}

/// A format in both forms, the plain one first.
pub fn both_forms(format: Format) -> [Format; 2] {
    [Format { form: 0, ..format }, Format { form: 1, ..format }]
}

/// Every precision in both forms, with two and three guard bits.
pub fn formats() -> Vec<Format> {
    precisions().flat_map(|k| both_forms(Format::plain(k))).collect()
}

/// Whether a format has two table guard bits and three input guard bits. Of these more cases are taken than with others.
pub fn is_usual(format: Format) -> bool {
    (format.table_guard_bits, format.input_guard_bits) == (2, 3)
}

/// A format with each number of table and of input guard bits, two and three left out.
pub fn with_others(format: Format) -> Vec<Format> {
    let all = TABLE_GUARD_BITS.flat_map(|table| INPUT_GUARD_BITS.map(move |input| format.with_guard_bits(table, input)));
    all.filter(|other| !is_usual(*other)).collect()
}

/// Every precision in both forms with the other guard bits.
pub fn other_formats() -> Vec<Format> {
    formats().into_iter().flat_map(with_others).collect()
}

/// 0 for the plain form, 1 for the full one.
fn form(format: Format) -> usize {
    usize::from(format.form != 0)
}

/// The bytes of an image.
pub fn length(format: Format) -> usize {
    LENGTHS[form(format)][(format.table_guard_bits - TABLE_GUARD_BITS.start()) as usize][(format.precision - LEAST) as usize]
}

/// The bits of a word: those of c(0), of which the plain one leaves the two uppermost out.
pub fn width(format: Format) -> usize {
    2 * format.precision as usize + format.table_guard_bits as usize + [0, 2][form(format)]
}

/// The words of an image: one for each node, the last one left out in the plain form.
pub fn words(format: Format) -> u128 {
    power(format.precision) + form(format) as u128
}

/// The fraction bits of an operand that a table looks at.
pub fn kept(format: Format) -> u32 {
    2 * format.precision + format.input_guard_bits
}

/// The numerator of a node: 2^(3k+a+1).
pub fn numerator(format: Format) -> u128 {
    power(3 * format.precision + format.table_guard_bits + 1)
}

/// c(j): the least whole number whose product with i = 2^k + j reaches the numerator.
fn node(format: Format, j: u32) -> u64 {
    let i = power(format.precision) + u128::from(j);
    let (mut below, mut reaches) = (0, power(2 * format.precision + format.table_guard_bits + 2));
    while reaches - below > 1 {
        let middle = (below + reaches) / 2;
        if middle * i < numerator(format) {
            below = middle;
        } else {
            reaches = middle;
        }
    }
    reaches as u64
}

/// The nodes of a format, the bits of the words of its image, and the image.
pub struct Table {
    pub nodes: Vec<u64>,
    pub bits: Vec<bool>,
    pub image: Vec<u8>,
}

impl Table {
    fn new(format: Format) -> Table {
        let last = power(format.precision) as u32;
        let nodes: Vec<u64> = (0..=last).map(|j| node(format, j)).collect();
        let stored = &nodes[..words(format) as usize];
        let bits: Vec<bool> = stored.iter().flat_map(|c| (0..width(format)).rev().map(move |at| c / (1 << at) % 2 == 1)).collect();
        let image = bytes_of(&bits);
        assert_eq!(image.len(), length(format));
        Table { nodes, bits, image }
    }
}

/// Bits in bytes, the first one the most significant, with zeros to the end of the last byte.
pub fn bytes_of(bits: &[bool]) -> Vec<u8> {
    bits.chunks(8).map(|byte| (0..8).fold(0, |sum, at| 2 * sum + u8::from(byte.get(at) == Some(&true)))).collect()
}

/// The table of a format. Input guard bits make no difference.
pub fn table(format: Format) -> &'static Table {
    static TABLES: [OnceLock<Table>; 72] = [const { OnceLock::new() }; 72];
    assert!(has_table(format));
    let at = 3 * (format.precision - LEAST) + format.table_guard_bits - TABLE_GUARD_BITS.start();
    TABLES[2 * at as usize + form(format)].get_or_init(|| Table::new(format))
}

/// The nodes of a format.
pub fn nodes(format: Format) -> &'static [u64] {
    &table(format).nodes
}

/// What stands for node j of precision 8 where no image is given: its value, and 0 where there is no such node.
pub fn constant_node(j: u32) -> u64 {
    nodes(Format::plain(8)).get(j as usize).copied().unwrap_or(0)
}

/// The piece of a normalised operand: it lies between nodes j and j + 1.
fn piece(k: u32, n: u32, x: u64) -> usize {
    (u128::from(x) * power(k) / power(n) - power(k)) as usize
}

/// The operand counted in 1 / 2^(2k+b), and what is left over dropped: the table looks at no other bits.
pub fn cut(format: Format, n: u32, x: u64) -> u128 {
    u128::from(x) * power(kept(format)) / power(n)
}

/// R of a normalised operand: the point above the cut operand on the line between two nodes, in whole ulps, each of 2^a table units.
pub fn interpolated(format: Format, n: u32, x: u64) -> u64 {
    let k = format.precision;
    let (j, t) = (piece(k, n, x), cut(format, n, x));
    let wide = power(k + format.input_guard_bits);
    let left = (power(k) + j as u128) * wide;
    let right = left + wide;
    let (high, low) = (u128::from(nodes(format)[j]), u128::from(nodes(format)[j + 1]));
    ((high * (right - t) + low * (t - left)) / (power(format.table_guard_bits) * wide)) as u64
}

/// Whether R lies less than an ulp, 1 / 2^(2k+1), from 2^n / X.
pub fn within_an_ulp(k: u32, n: u32, x: u64, r: u64) -> bool {
    (u128::from(r) * u128::from(x)).abs_diff(power(n + 2 * k + 1)) < u128::from(x)
}

/// A refusal's number, and whether it applies.
pub type Refusal = (u32, bool);

/// The refusals of every call on an image, in their order.
pub fn image_refusals(format: Format, length: usize) -> [Refusal; 3] {
    let short = 8 * (length as u128) < words(format) * width(format) as u128;
    [(1, !is_precision(format.precision)), (18, !has_guard_bits(format)), (2, short)]
}

/// The refusals of reading a node but for wrong words.
pub fn node_refusals(format: Format, length: usize, j: u32) -> [Refusal; 4] {
    let [first, second, third] = image_refusals(format, length);
    [first, second, third, (3, u128::from(j) > power(format.precision))]
}

/// The refusals of the reciprocal but for wrong words.
pub fn reciprocal_refusals(format: Format, length: usize, n: u32, x: u64) -> [Refusal; 5] {
    let [first, second, third] = image_refusals(format, length);
    let fraction_bits = !(LEAST_FRACTION_BITS..=MOST_FRACTION_BITS).contains(&n);
    let not_normalised = u128::from(x) < power(n) || u128::from(x) >= 2 * power(n);
    [first, second, third, (4, fraction_bits), (5, not_normalised)]
}

/// What is known of a lent buffer: the bytes that it is said to have, which words of the format are wrong in it, and which bytes have a bit
/// set behind the last word: the image's last byte by a filling bit, and those of the tail.
pub struct Judged {
    pub format: Format,
    pub length: usize,
    wrong: Vec<bool>,
    stray: BTreeSet<usize>,
}

impl Judged {
    /// Judges the words that lie in the bytes, and what stands behind them. Of the bytes, `length` are said to be lent.
    pub fn new(format: Format, bytes: &[u8], length: usize) -> Judged {
        if !has_table(format) {
            return Judged { format, length, wrong: Vec::new(), stray: BTreeSet::new() };
        }
        let there = (8 * bytes.len() / width(format)).min(words(format) as usize);
        let wrong = (0..there).map(|j| is_wrong(format, bytes, j)).collect();
        let stray = (table(format).bits.len() / 8..bytes.len()).filter(|at| is_stray(format, bytes, *at)).collect();
        Judged { format, length, wrong, stray }
    }

    /// Judges anew the word that holds a bit, or the byte that holds it behind the words.
    pub fn again(&mut self, bytes: &[u8], bit: usize) {
        let (j, byte) = (bit / width(self.format), bit / 8);
        if j < self.wrong.len() {
            self.wrong[j] = is_wrong(self.format, bytes, j);
        } else if is_stray(self.format, bytes, byte) {
            self.stray.insert(byte);
        } else {
            self.stray.remove(&byte);
        }
    }

    /// A byte behind the words is not zero, though it lies past the bytes that were judged.
    pub fn stray_at(&mut self, at: usize) {
        self.stray.insert(at);
    }

    /// Whether a bit behind the words is set.
    pub fn has_stray(&self) -> bool {
        !self.stray.is_empty()
    }

    /// The answer of a call that has these refusals, then reads these words, and serves this value.
    fn answer(&self, refusals: &[Refusal], read: impl FnOnce() -> Range<usize>, value: impl FnOnce() -> u64) -> Answer {
        if let Some((number, _)) = refusals.iter().find(|(_, applies)| *applies) {
            return Answer { number: *number, place: 0, value: 0 };
        }
        let read = read();
        match self.wrong[read.clone()].iter().position(|wrong| *wrong) {
            Some(at) => Answer { number: 6, place: (read.start + at) as u64, value: 0 },
            None => Answer { number: 0, place: 0, value: value() },
        }
    }

    /// The words of these nodes, as far as each has one.
    fn words_of(&self, nodes: Range<usize>) -> Range<usize> {
        nodes.start..nodes.end.min(words(self.format) as usize)
    }

    pub fn build(&self) -> Answer {
        self.answer(&image_refusals(self.format, self.length), || 0..0, || 0)
    }

    pub fn check(&self) -> Answer {
        let judged = self.answer(&image_refusals(self.format, self.length), || self.words_of(0..usize::MAX), || 0);
        match self.stray.first() {
            Some(at) if judged.number == 0 => Answer { number: 7, place: *at as u64, value: 0 },
            _ => judged,
        }
    }

    pub fn node(&self, j: u32) -> Answer {
        let at = j as usize;
        let value = || nodes(self.format)[at];
        self.answer(&node_refusals(self.format, self.length, j), || self.words_of(at..at + 1), value)
    }

    pub fn reciprocal(&self, n: u32, x: u64) -> Answer {
        let k = self.format.precision;
        let ends = || self.words_of(piece(k, n, x)..piece(k, n, x) + 2);
        self.answer(&reciprocal_refusals(self.format, self.length, n, x), ends, || interpolated(self.format, n, x))
    }

    pub fn word_bytes(&self, j: u32) -> Part {
        let refused = image_refusals(self.format, self.length).iter().any(|(_, applies)| *applies);
        if refused || u128::from(j) >= words(self.format) {
            return Part { offset: 0, count: 0 };
        }
        // The bytes are told by their bits: the first that has a bit of the word, and how many have one.
        let bits = j as usize * width(self.format)..(j as usize + 1) * width(self.format);
        let mut bytes: Vec<usize> = bits.map(|bit| bit / 8).collect();
        bytes.dedup();
        Part { offset: bytes[0], count: bytes.len() }
    }
}

/// What a served builder leaves in a buffer of a length: the image, and zeros to the end.
pub fn rom(format: Format, length: usize) -> Vec<u8> {
    let mut bytes = table(format).image.clone();
    bytes.resize(length, 0);
    bytes
}

/// A bit, counted from the most significant of byte 0.
fn bit_of(bytes: &[u8], bit: usize) -> bool {
    bytes[bit / 8] >> (7 - bit % 8) & 1 == 1
}

/// Whether the bits of word j are not those of the construction.
fn is_wrong(format: Format, bytes: &[u8], j: usize) -> bool {
    let right = &table(format).bits;
    (j * width(format)..(j + 1) * width(format)).any(|bit| bit_of(bytes, bit) != right[bit])
}

/// Whether a byte has a bit set that stands behind the last word.
fn is_stray(format: Format, bytes: &[u8], at: usize) -> bool {
    let past = table(format).bits.len();
    bytes[at] != 0 && (8 * at >= past || (past..8 * at + 8).any(|bit| bit_of(bytes, bit)))
}
