//! Formats, and full words: the images of precisions 1 and 2 as they are set, what an image holds,
//! its last node; filling bits in either form.
#![forbid(unsafe_code)]

mod common;

use common::{both, every_format, filling, formats, guarded, image, kept, length, said, value, width, words};
use std::collections::HashSet;
use yildegga::{check, last_node, node, reciprocal, word_bytes, word_range, BoundTable, Form, Format, TableUnits};

const ONE: [u8; 3] = [0x81, 0x64, 0x00];
const TWO: [u8; 5] = [0x80, 0x67, 0x56, 0x4A, 0x40];

/// What a format says of itself, at each precision and at numbers that are none.
#[test]
fn formats_say_what_they_ask_for() {
    for format in every_format() {
        let (k, a, b) = (format.precision(), format.table_guard_bits(), format.input_guard_bits());
        let usual = if format.form() == Form::Plain { Format::plain(k) } else { Format::full(k) };
        assert_eq!(usual.with_guard_bits(a, b), format);
        assert_eq!(format.with_guard_bits(2, 3), usual);
        assert_eq!(format.table_units_in_ulp(), Some([4, 8, 16][a as usize - 2]));
        assert_eq!(format.word_count(), Some(words(format)));
        assert_eq!(format.word_bits().map(|bits| bits as usize), Some(width(format)));
        assert_eq!(format.image_length(), Some(length(format)));
    }
    for k in [0, 13, 14, 31, 32, 255, 256, 257, 268, 1 << 16, 1 << 31, u32::MAX] {
        for format in both(k) {
            assert_eq!((format.precision(), format.word_count(), format.word_bits(), format.image_length()), (k, None, None, None));
        }
        assert_eq!(last_node(k), None);
    }
    for format in formats() {
        for (table, input) in [(0, 3), (1, 3), (5, 3), (2, 0), (2, 2), (2, 6), (1, 6), (1 << 31, 3), (2, 1 << 31), (u32::MAX, u32::MAX)] {
            let format = format.with_guard_bits(table, input);
            assert_eq!((format.table_guard_bits(), format.input_guard_bits()), (table, input));
            assert_eq!((format.word_count(), format.word_bits(), format.image_length()), (None, None, None));
            assert_eq!(format.table_units_in_ulp(), None);
        }
    }
    assert_eq!(formats().collect::<HashSet<_>>().len(), 24);
    assert_eq!(every_format().collect::<HashSet<_>>().len(), 216);
}

/// The lengths are those that the archive gives, at whatever precision and with whatever guard bits.
#[test]
fn lengths_are_the_archive_s() {
    let mut lengths = HashSet::new();
    for k in (0..70).chain([255, 256, 257, 268, 1 << 16, (1 << 16) + 2, 1 << 31, (1 << 31) + 2, u32::MAX]) {
        for (format, form) in both(k).into_iter().zip([yildegga_sys::PLAIN_WORDS, yildegga_sys::FULL_WORDS]) {
            for a in (0..8).chain([33, 34, 258, 1 << 16, (1 << 16) + 2, (1 << 31) + 2, u32::MAX]) {
                for b in (0..8).chain([35, 259, (1 << 16) + 3, (1 << 31) + 3, u32::MAX]) {
                    let asked = yildegga_sys::Format { precision: k, form, table_guard_bits: a, input_guard_bits: b };
                    let length = format.with_guard_bits(a, b).image_length();
                    assert_eq!(length.unwrap_or(0), yildegga_sys::image_length(asked), "{asked:?}");
                    lengths.extend(length);
                }
            }
        }
    }
    assert_eq!(lengths, every_format().map(common::length).collect());
}

/// Lengths of arrays, where the precision is a constant.
#[test]
fn lengths_are_constants() {
    const TWO: Format = Format::full(2);
    let mut buffer = [0; TWO.image_length().unwrap()];
    assert_eq!(said(yildegga::build(TWO, &mut buffer)), Ok(()));
    let values = [0u64; TWO.word_count().unwrap() as usize];
    assert_eq!((buffer.len(), values.len(), TWO.word_bits()), (5, 5, Some(8)));
}

#[test]
fn set_images() {
    for (k, bytes, nodes) in [(1, &ONE[..], &[32, 22, 16][..]), (2, &TWO, &[128, 103, 86, 74, 64])] {
        let full = Format::full(k);
        assert_eq!(image(full), bytes);
        assert_eq!(said(check(full, bytes)), Ok(()));
        for (j, &value) in (0..).zip(nodes) {
            assert_eq!(said(node(full, bytes, j)), Ok(TableUnits(value)), "node {j} at k = {k}");
        }
    }
}

/// A full format, and the plain one of its precision with its guard bits.
fn full_and_plain() -> impl Iterator<Item = (Format, Format)> {
    let plain = |full: Format| Format::plain(full.precision()).with_guard_bits(full.table_guard_bits(), full.input_guard_bits());
    (1..=12).flat_map(|k| guarded(Format::full(k))).map(move |full| (full, plain(full)))
}

/// The words of an image, as a bench reads them from its bytes alone, are the nodes; and plain words are their last
/// bits.
#[test]
fn words_are_the_nodes() {
    for (full, plain) in full_and_plain() {
        let images = [full, plain].map(image);
        let bits_of = |image: &Vec<u8>| image.iter().flat_map(|byte| (0..8).rev().map(move |at| byte >> at & 1 == 1)).collect();
        let [bits, short]: [Vec<bool>; 2] = images.each_ref().map(bits_of);
        let number = |word: &[bool]| word.iter().fold(0, |sum, &bit| 2 * sum + u64::from(bit));
        for j in 0..words(full) {
            let word = number(&bits[j as usize * width(full)..][..width(full)]);
            assert_eq!(word, value(full, j), "{full:?}, word {j}");
            assert_eq!(said(node(full, &images[0], j)), Ok(TableUnits(word)), "{full:?}, node {j}");
            assert_eq!(said(node(plain, &images[1], j)), Ok(TableUnits(word)), "{plain:?}, node {j}");
            if j < words(plain) {
                assert_eq!(number(&short[j as usize * width(plain)..][..width(plain)]), word % (1 << width(plain)), "{plain:?}, word {j}");
            }
        }
        assert!(bits[words(full) as usize * width(full)..].iter().all(|bit| !bit), "{full:?}");
        assert!(short[words(plain) as usize * width(plain)..].iter().all(|bit| !bit), "{plain:?}");
    }
}

/// From a plain and a full image of one precision every operand has the same answer.
#[test]
fn reciprocals_do_not_depend_on_the_form() {
    for (full, plain) in full_and_plain() {
        let images = [image(full), image(plain)];
        let tables = [BoundTable::new(full, &images[0]), BoundTable::new(plain, &images[1])];
        for n in [0, 1, full.precision(), kept(full) - 1, kept(full), kept(full) + 1, 52, 63, 64] {
            let one = 1u64 << n.min(63);
            for at in 0..300 {
                let x = one.wrapping_add((one / 293).max(1) * at);
                let given = tables.map(|table| said(table.reciprocal(n, x)));
                assert_eq!(given[0], given[1], "{full:?}, n = {n}, X = {x}");
                assert_eq!(said(reciprocal(full, &images[0], n, x)), given[0], "{full:?}, n = {n}, X = {x}");
            }
        }
    }
}

/// The word of node 2^k is read, judged and shown like the rest.
#[test]
fn the_last_node_has_a_word() {
    for (full, _) in full_and_plain() {
        let (k, right) = (full.precision(), image(full));
        let last = 1 << k;
        let first_bit = last as usize * width(full);
        let shown = first_bit / 8..(first_bit + width(full) - 1) / 8 + 1;
        assert_eq!(word_range(full, &right, last), shown, "{full:?}");
        assert_eq!(word_bytes(full, &right, last), &right[shown], "{full:?}");
        assert_eq!(word_range(full, &right, last + 1), 0..0, "{full:?}");
        for bit in first_bit..first_bit + width(full) {
            let mut wrong = right.clone();
            wrong[bit / 8] ^= 0x80 >> (bit % 8);
            let refused = Err((6, last.into()));
            assert_eq!(said(check(full, &wrong)), refused.map(|_: u64| ()), "{full:?}, bit {bit}");
            assert_eq!(said(node(full, &wrong, last)).map(|c| c.0), refused, "{full:?}, bit {bit}");
            assert_eq!(said(node(full, &wrong, last - 1)), said(node(full, &right, last - 1)), "{full:?}, bit {bit}");
            for (n, x) in [(63, u64::MAX), (kept(full), (2 << kept(full)) - 1), (k, (2 << k) - 1)] {
                assert_eq!(said(reciprocal(full, &wrong, n, x)).map(|r| r.0), refused, "{full:?}, bit {bit}, n = {n}");
            }
            // The last operand of the piece before the last.
            let before = (1u64 << 63) + ((u64::from(last) - 1) << (63 - k)) - 1;
            assert_eq!(said(reciprocal(full, &wrong, 63, before)), said(reciprocal(full, &right, 63, before)), "{full:?}, bit {bit}");
        }
    }
}

/// The filling bits, in every combination: where one is set, the check names the image's last byte, before any of the
/// tail and after any wrong word, and no other call is changed. Node 2^k of a plain image is not what they and the tail
/// hold.
#[test]
fn filling_bits_are_the_check_s() {
    let mut with = [(); 2].map(|()| [(); 3].map(|()| Vec::new()));
    for format in every_format() {
        let (k, right) = (format.precision(), image(format));
        let filling = filling(format);
        if filling > 0 && format.input_guard_bits() == 3 {
            with[usize::from(format.form() == Form::Full)][format.table_guard_bits() as usize - 2].push((k, filling));
        }
        for set in 1..1u8 << filling {
            let mut rom = right.clone();
            let last = rom.len() - 1;
            rom[last] |= set;
            for tail in [&[][..], &[0x00], &[0x00, 0x01], &[0xFF]] {
                rom.truncate(last + 1);
                rom.extend(tail);
                assert_eq!(said(check(format, &rom)), Err((7, last as u64)), "{format:?}, {set:#b}, tail {tail:?}");
                rom[0] ^= 0x40;
                assert_eq!(said(check(format, &rom)), Err((6, 0)), "{format:?}, {set:#b}, tail {tail:?}");
                rom[0] ^= 0x40;
                for j in [0, (1 << k) - 1, 1 << k, (1 << k) + 1] {
                    assert_eq!(said(node(format, &rom, j)), said(node(format, &right, j)));
                    assert_eq!(word_range(format, &rom, j), word_range(format, &right, j));
                }
                assert_eq!(said(reciprocal(format, &rom, 63, u64::MAX)), said(reciprocal(format, &right, 63, u64::MAX)));
            }
        }
    }
    let [plain, full] = with;
    assert_eq!(plain, [vec![], vec![(1, 6), (2, 4)], vec![(1, 4)]]);
    assert_eq!(full[0], [(1, 6), (3, 6), (4, 4), (5, 2), (7, 6), (8, 4), (9, 2), (11, 6), (12, 4)]);
    assert_eq!(full[1], [(1, 3), (2, 3), (3, 5), (4, 3), (5, 1), (6, 7), (7, 5), (8, 3), (9, 1), (10, 7), (11, 5), (12, 3)]);
    assert_eq!(full[2], [(2, 6), (3, 4), (4, 2), (6, 6), (7, 4), (8, 2), (10, 6), (11, 4), (12, 2)]);
}
