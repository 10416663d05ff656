//! Guard bits to order: set examples at precisions 1 and 2, what each of the two numbers changes,
//! and the errors that they invite.
#![forbid(unsafe_code)]

mod common;

use common::{both, every_format, image, is_near, kept, length, rule, said, value, words};
use yildegga::{build, check, last_node, node, reciprocal, word_bytes, word_range, BoundTable, Format, TableUnits, Ulps};

/// Two words of five bits, 0 and 11, and six filling bits.
const ONE: [u8; 2] = [0b00000_010, 0b11_000000];
const FORMAT: Format = Format::plain(1).with_guard_bits(3, 3);

#[test]
fn set_images() {
    let images: [(u32, [u64; 3], &[u8], &[u8]); 3] = [
        (2, [32, 22, 16], &[0b0000_0110], &[0b100000_01, 0b0110_0100, 0]),
        (3, [64, 43, 32], &ONE, &[0b1000000_0, 0b101011_01, 0b00000_000]),
        (4, [128, 86, 64], &[0b000000_01, 0b0110_0000], &[128, 86, 64]),
    ];
    for (a, nodes, plain, full) in images {
        for (format, bytes) in both(1).into_iter().zip([plain, full]) {
            for b in 3..=5 {
                let format = format.with_guard_bits(a, b);
                assert_eq!(image(format), bytes, "{format:?}");
                assert_eq!(said(check(format, bytes)), Ok(()), "{format:?}");
                for (j, &value) in (0..).zip(&nodes) {
                    assert_eq!(said(node(format, bytes, j)), Ok(TableUnits(value)), "{format:?}, node {j}");
                }
                assert_eq!(said(node(format, bytes, 3)), Err((3, 0)), "{format:?}");
            }
        }
    }
}

/// Two and three are what a format has where nothing is said.
#[test]
fn two_and_three_where_none_are_ordered() {
    for format in (0..=13).flat_map(both) {
        assert_eq!((format.table_guard_bits(), format.input_guard_bits()), (2, 3));
        assert_eq!(format.with_guard_bits(4, 5).with_guard_bits(2, 3), format);
    }
}

/// Images differ by the table guard bits alone: that of one number of them is wrong for another.
#[test]
fn input_guard_bits_change_no_image() {
    for format in every_format() {
        let mut rom = image(format);
        for (table, input) in (2..=4).flat_map(|table| (3..=5).map(move |input| (table, input))) {
            let other = format.with_guard_bits(table, input);
            rom.resize(length(other).max(rom.len()), 0);
            assert_eq!(check(other, &rom).is_ok(), table == format.table_guard_bits(), "{format:?}, {other:?}");
        }
    }
}

/// Node 2^k of a plain image is implied, whatever stands behind the last word: in its byte, or past it.
#[test]
fn filling_bits_are_not_the_last_node() {
    for filling in 0..=0b11_1111 {
        let worn = [ONE[0], ONE[1] | filling];
        assert_eq!(said(check(FORMAT, &worn)), if filling == 0 { Ok(()) } else { Err((7, 1)) });
        assert_eq!(said(node(FORMAT, &worn, 2)), Ok(TableUnits(32)));
        assert_eq!((word_bytes(FORMAT, &worn, 1), word_range(FORMAT, &worn, 1)), (&worn[..], 0..2));
        assert_eq!((word_bytes(FORMAT, &worn, 2), word_range(FORMAT, &worn, 2)), (&worn[..0], 0..0));
        assert_eq!(said(reciprocal(FORMAT, &worn, 5, 63)), Ok(Ulps(4)));
        assert_eq!(said(BoundTable::new(FORMAT, &worn).reciprocal(63, u64::MAX)), Ok(Ulps(4)));
    }
    for format in every_format() {
        let k = format.precision();
        let right = image(format);
        for after in [0x00, 0x55, 0xFF] {
            let longer = [&right[..], &[after; 8]].concat();
            assert_eq!(said(node(format, &longer, 1 << k)), Ok(TableUnits(value(format, 1 << k))), "{format:?}, {after:#x} behind");
            assert_eq!(said(reciprocal(format, &longer, 63, u64::MAX)), Ok(Ulps(1 << (2 * k))), "{format:?}, {after:#x} behind");
            assert_eq!(word_range(format, &longer, words(format)), 0..0, "{format:?}, {after:#x} behind");
        }
    }
}

/// Set reciprocals at precision 2 with seven fraction bits, by the rule of docs/SCOPE.md, "The reciprocal".
#[test]
fn set_reciprocals() {
    let r = |a, b, n, x| {
        let format = Format::plain(2).with_guard_bits(a, b);
        said(reciprocal(format, &image(format), n, x)).unwrap().0
    };
    // P of 135 / 2^7 is 128 × 32 - 25 × 7 = 3921, then 256 × 32 - 51 × 7 = 7835 and 512 × 32 - 102 × 7 = 15670. An ulp
    // is 128, 256 and 512.
    assert_eq!([r(2, 3, 7, 135), r(3, 3, 7, 135), r(4, 3, 7, 135)], [30, 30, 30]);
    // At node 1 it is 103 / 4, 205 / 8 and 410 / 16.
    assert_eq!([r(2, 3, 7, 160), r(3, 3, 7, 160), r(4, 3, 7, 160)], [25, 25, 25]);
    // 257 / 2^8 is cut to 128 / 2^7 with three input guard bits.
    assert_eq!([r(2, 3, 8, 257), r(2, 4, 8, 257), r(2, 5, 8, 257)], [32, 31, 31]);
    assert_eq!([r(4, 3, 9, 513), r(4, 4, 9, 513), r(4, 5, 9, 513)], [32, 32, 31]);
    assert_eq!([r(3, 3, 63, u64::MAX), r(3, 4, 63, u64::MAX), r(3, 5, 63, u64::MAX)], [16, 16, 16]);
}

/// With more table guard bits the nodes are nearer to what they stand for, and some reciprocals with them.
#[test]
fn table_guard_bits_change_reciprocals() {
    for b in 3..=5 {
        let given = |a, x| {
            let format = Format::full(8).with_guard_bits(a, b);
            said(reciprocal(format, &image(format), 16 + b, x)).unwrap()
        };
        let all = 1u64 << (16 + b)..2 << (16 + b);
        let changed = all.clone().step_by(97).filter(|&x| given(2, x) != given(4, x)).count();
        assert!(changed > 0 && changed < all.step_by(97).count() / 4, "{changed} changed with {b} input guard bits");
    }
}

/// Each format has reciprocals less than an ulp off, those of the rule: at the ends of its pieces, and with bits to the
/// right of those that are looked at.
#[test]
fn reciprocals_are_the_rule_s() {
    for format in every_format() {
        let (k, image) = (format.precision(), image(format));
        let (table, kept) = (BoundTable::new(format, &image), kept(format));
        let last = u64::from(last_node(k).unwrap());
        for j in (0..last).step_by(1 + last as usize / 40).chain([last - 1]) {
            for n in [k, kept - 1, kept, kept + 1, 63] {
                let (left, steps) = ((last + j) << (n - k), 1u64 << (n - k));
                for x in [left, left + steps / 2, left + (steps - 1)] {
                    let r = said(table.reciprocal(n, x)).unwrap();
                    assert_eq!(r, rule(format, n, x), "{format:?}, n = {n}, X = {x}");
                    assert!(is_near(k, n, x, r), "{format:?}, n = {n}, X = {x}");
                }
            }
        }
    }
}

/// One number behind a limit is enough, and a format is turned back also by the calls that have no use for it.
#[test]
fn out_of_range() {
    let mut buffer = vec![0xA5; Format::LONGEST];
    for format in every_format() {
        let (a, b) = (format.table_guard_bits(), format.input_guard_bits());
        for other in
            [format.with_guard_bits(1, b), format.with_guard_bits(5, b), format.with_guard_bits(a, 2), format.with_guard_bits(a, 6)]
        {
            assert_eq!(said(build(other, &mut buffer)), Err((18, 0)), "{other:?}");
            assert_eq!(said(check(other, &buffer)), Err((18, 0)), "{other:?}");
            assert_eq!(said(node(other, &buffer, 0)), Err((18, 0)), "{other:?}");
            assert_eq!(said(reciprocal(other, &buffer, 7, 135)), Err((18, 0)), "{other:?}");
            assert_eq!(said(BoundTable::new(other, &buffer).node(0)), Err((18, 0)), "{other:?}");
            assert_eq!(said(BoundTable::new(other, &buffer).reciprocal(7, 135)), Err((18, 0)), "{other:?}");
            assert_eq!((word_bytes(other, &buffer, 0), word_range(other, &buffer, 0)), (&buffer[..0], 0..0), "{other:?}");
            assert_eq!((other.image_length(), other.word_count(), other.word_bits()), (None, None, None));
        }
        assert_eq!(format.image_length(), Some(length(format)));
    }
    assert_eq!(buffer, vec![0xA5; Format::LONGEST]);
}
