//! Lent bytes: what is written where, and what stays as it was.
#![forbid(unsafe_code)]

mod common;

use common::{both, every_format, filling, image, length, said, width, words};
use yildegga::{build, check, node, reciprocal, word_bytes, word_range, BoundTable};

const GUARD: usize = 64;

/// A room of bytes that all differ from their neighbours, with space for a buffer between two guards.
fn room(length: usize) -> Vec<u8> {
    (0..GUARD + length + GUARD).map(|at| (at * 37 + 11) as u8).collect()
}

/// What is lent becomes the image and zeros to its end, and no byte before or after it changes, at any alignment.
#[test]
fn build_writes_what_is_lent_and_no_more() {
    for format in every_format() {
        let length = length(format);
        for (shift, more) in (0..16).zip([0, 1, 2, 7, 16, 64, 65, 1000, 70000].into_iter().cycle()) {
            let before = room(length + more);
            let (start, end) = (GUARD - shift, GUARD - shift + length + more);
            let mut after = before.clone();
            assert_eq!(said(build(format, &mut after[start..end])), Ok(()));
            assert_eq!(after[..start], before[..start], "{format:?}, {more} bytes more");
            assert_eq!(after[start..start + length], image(format), "{format:?}, {more} bytes more");
            assert_eq!(after[start + length..end], vec![0; more], "{format:?}, {more} bytes more");
            assert_eq!(after[end..], before[end..], "{format:?}, {more} bytes more");
            assert_eq!(said(check(format, &after[start..end])), Ok(()), "{format:?}, {more} bytes more");
        }
    }
}

/// A build that is turned back writes nothing, in the buffer or about it.
#[test]
fn build_turned_back_writes_nothing() {
    let before = room(20000);
    let mut after = before.clone();
    let no_precision = [0, 13, 1 << 31, u32::MAX].into_iter().flat_map(both);
    let no_guard_bits = [(1, 3), (5, 3), (2, 2), (2, 6), (0, 0), (u32::MAX, u32::MAX)].into_iter();
    let no_guard_bits = no_guard_bits.flat_map(|(table, input)| both(2).map(|format| format.with_guard_bits(table, input)));
    let short = every_format().map(|format| (format, 2));
    for (format, number) in short.chain(no_precision.map(|format| (format, 1))).chain(no_guard_bits.map(|format| (format, 18))) {
        let lent = if number == 2 { length(format) - 1 } else { 20000 };
        for lent in [0, lent / 2, lent] {
            assert_eq!(said(build(format, &mut after[GUARD..GUARD + lent])), Err((number, 0)));
            assert_eq!(after, before, "{format:?}, {lent} bytes");
        }
    }
}

/// The calls that read leave the image and what is about it as they were.
#[test]
fn reading_writes_nothing() {
    for format in every_format() {
        let k = format.precision();
        let mut before = room(length(format));
        let lent = GUARD..GUARD + length(format);
        build(format, &mut before[lent.clone()]).unwrap();
        before[GUARD] ^= 1; // refusal 6 too
        let after = before.clone();
        let image = &after[lent];
        let table = BoundTable::new(format, image);
        let _ = check(format, image);
        for j in [0, 1, 1 << k, u32::MAX] {
            let _ = (node(format, image, j), table.node(j), word_bytes(format, image, j).len());
        }
        for (n, x) in [(63, 1 << 63), (63, u64::MAX), (63, 0), (1, 2), (1, 3), (k, (2 << k) - 1)] {
            let _ = (reciprocal(format, image, n, x), table.reciprocal(n, x));
        }
        assert_eq!(after, before);
    }
}

/// But for the check, no call that reads depends on the tail or the filling bits: whatever stands there, the answers
/// are the same.
#[test]
fn no_node_or_reciprocal_depends_on_the_tail() {
    for format in every_format() {
        let k = format.precision();
        let exact = image(format);
        let filling = filling(format);
        for after in [0x00, 0x55, 0xFF] {
            let mut longer = exact.clone();
            *longer.last_mut().unwrap() |= after & ((1 << filling) - 1);
            longer.resize(exact.len() + 16, after);
            let table = BoundTable::new(format, &longer);
            for j in [(1 << k) - 1, 1 << k, (1 << k) + 1] {
                assert_eq!(said(node(format, &longer, j)), said(node(format, &exact, j)));
                assert_eq!(said(table.node(j)), said(node(format, &exact, j)));
                assert_eq!(word_range(format, &longer, j), word_range(format, &exact, j));
                // The bytes are shown as they are, filling bits too.
                assert_eq!(word_bytes(format, &longer, j), &longer[word_range(format, &exact, j)]);
            }
            for (n, x) in [(63, u64::MAX), (k, (2 << k) - 1)] {
                assert_eq!(said(reciprocal(format, &longer, n, x)), said(reciprocal(format, &exact, n, x)));
                assert_eq!(said(table.reciprocal(n, x)), said(reciprocal(format, &exact, n, x)));
            }
        }
    }
}

/// The check reads the tail to its last byte and no further: what stands behind the lent bytes does not count.
#[test]
fn check_reads_what_is_lent_and_no_more() {
    for format in every_format() {
        let length = length(format);
        for more in [0, 1, 7, 8, 63, 64, 65, 1000] {
            let mut room = room(length + more);
            let lent = GUARD..GUARD + length + more;
            build(format, &mut room[lent.clone()]).unwrap();
            assert_eq!(said(check(format, &room[lent.clone()])), Ok(()), "{format:?}, {more} bytes more");
            let first_guard = room[lent.end..].iter().position(|&byte| byte != 0).unwrap();
            let place = (length + more + first_guard) as u64;
            assert_eq!(said(check(format, &room[GUARD..])), Err((7, place)), "{format:?}, {more} bytes more");
        }
    }
}

/// An empty slice, lent from nowhere, from the middle and from the end of bytes.
#[test]
fn empty_slices() {
    let bytes = [0x02, 0x75, 0x8A];
    let mut none: [u8; 0] = [];
    for format in every_format() {
        assert_eq!(said(build(format, &mut none)), Err((2, 0)));
        assert_eq!(said(build(format, &mut Vec::new())), Err((2, 0)));
        for empty in [&none[..], &[], &bytes[1..1], &bytes[3..]] {
            assert_eq!(said(check(format, empty)), Err((2, 0)));
            assert_eq!(said(node(format, empty, 0)), Err((2, 0)));
            assert_eq!(said(reciprocal(format, empty, 63, 1 << 63)), Err((2, 0)));
            assert_eq!(word_bytes(format, empty, 0), []);
            assert_eq!(word_range(format, empty, 0), 0..0);
            assert_eq!(said(BoundTable::new(format, empty).node(0)), Err((2, 0)));
            assert_eq!(said(BoundTable::new(format, empty).reciprocal(63, 1 << 63)), Err((2, 0)));
        }
    }
}

/// The bytes of a word are the caller's own and not a copy, and every byte of the image belongs to a word.
#[test]
fn word_bytes_are_a_part_of_the_image() {
    for format in every_format() {
        let image = image(format);
        let mut shown = 0;
        for j in 0..words(format) {
            let first = j as usize * width(format);
            let range = word_range(format, &image, j);
            assert_eq!(range, first / 8..(first + width(format) - 1) / 8 + 1, "{format:?}, word {j}");
            assert!(std::ptr::eq(word_bytes(format, &image, j), &image[range.clone()]), "{format:?}, word {j}");
            assert!(range.start <= shown);
            shown = range.end;
        }
        assert_eq!(shown, image.len());
    }
}
