//! The set examples of docs/SCOPE.md in plain words: nodes, images and reciprocals, the cases at the limits, full ROMs,
//! and the errors that the tables invite.
#![forbid(unsafe_code)]

mod common;

use common::{image, said};
use yildegga::{build, check, node, node_8, reciprocal, word_bytes, word_range, BoundTable, Format, TableUnits, Ulps};

/// The format of most examples, and its image.
const PLAIN: Format = Format::plain(2);
const TWO: [u8; 3] = [0x02, 0x75, 0x8A];

/// What the call itself and the bound table answer, which must be the same.
fn reciprocal_by_both(format: Format, image: &[u8], n: u32, x: u64) -> Result<Ulps, (u32, u64)> {
    let answer = said(reciprocal(format, image, n, x));
    assert_eq!(said(BoundTable::new(format, image).reciprocal(n, x)), answer);
    answer
}

/// The same of a node.
fn node_by_both(format: Format, image: &[u8], j: u32) -> Result<TableUnits, (u32, u64)> {
    let answer = said(node(format, image, j));
    assert_eq!(said(BoundTable::new(format, image).node(j)), answer);
    answer
}

#[test]
fn nodes_and_images() {
    let examples: [(u32, &[u64], &[u8]); 3] = [
        (1, &[32, 22, 16], &[0x06]),
        (2, &[128, 103, 86, 74, 64], &TWO),
        (3, &[512, 456, 410, 373, 342, 316, 293, 274, 256], &[0x00, 0xC8, 0x9A, 0x75, 0x56, 0x3C, 0x25, 0x12]),
    ];
    for (k, nodes, bytes) in examples {
        let format = Format::plain(k);
        assert_eq!(image(format), bytes);
        assert_eq!(said(check(format, bytes)), Ok(()));
        for (j, &value) in (0..).zip(nodes) {
            assert_eq!(node_by_both(format, bytes, j), Ok(TableUnits(value)), "node {j} at k = {k}");
        }
        assert_eq!(node_by_both(format, bytes, nodes.len() as u32), Err((3, 0)));
    }
}

/// The constant list of 257 numbers, from 524288 down to 262144, by the rule and by the image of precision 8.
#[test]
fn constant_nodes() {
    let eight = image(Format::plain(8));
    assert_eq!((node_8(0), node_8(256)), (TableUnits(524288), TableUnits(262144)));
    for j in 0..=256 {
        assert_eq!(node_8(j), TableUnits((1u64 << 27).div_ceil(256 + u64::from(j))), "node {j}");
        assert_eq!(Ok(node_8(j)), node_by_both(Format::plain(8), &eight, j));
    }
    for j in (257..1000).chain([1 << 16, (1 << 16) + 1, 1 << 31, (1 << 31) + 256, u32::MAX - 1, u32::MAX]) {
        assert_eq!(node_8(j), TableUnits(0), "node {j}");
    }
}

#[test]
fn reciprocals() {
    for (x, r) in [(128, 32), (129, 31), (135, 30), (160, 25), (255, 16)] {
        assert_eq!(reciprocal_by_both(PLAIN, &TWO, 7, x), Ok(Ulps(r)), "X = {x}");
    }
    assert_eq!(reciprocal_by_both(PLAIN, &TWO, 63, (1 << 63) + 1), Ok(Ulps(32)));
    assert_eq!(reciprocal_by_both(PLAIN, &TWO, 63, u64::MAX), Ok(Ulps(16)));
    assert_eq!(reciprocal_by_both(Format::plain(1), &[0x06], 5, 32), Ok(Ulps(8)));
    assert_eq!(reciprocal_by_both(Format::plain(1), &[0x06], 5, 63), Ok(Ulps(4)));
}

#[test]
fn precision_out_of_range() {
    for k in [0, 13] {
        let format = Format::plain(k);
        let mut buffer = [0xA5; 20000];
        assert_eq!(format.image_length(), None);
        assert_eq!(said(build(format, &mut buffer)), Err((1, 0)));
        assert_eq!(buffer, [0xA5; 20000]);
        assert_eq!(said(check(format, &buffer)), Err((1, 0)));
        assert_eq!(node_by_both(format, &buffer, 0), Err((1, 0)));
        assert_eq!(word_bytes(format, &buffer, 0), []);
        for n in [7, 99] {
            assert_eq!(reciprocal_by_both(format, &buffer, n, 135), Err((1, 0)));
        }
    }
}

#[test]
fn buffer_too_short() {
    let twelve = Format::plain(12);
    let mut buffer = [0xA5; 13312];
    assert_eq!(said(build(twelve, &mut buffer[..13311])), Err((2, 0)));
    assert_eq!(buffer, [0xA5; 13312]);
    assert_eq!(said(build(twelve, &mut buffer)), Ok(()));
    assert_eq!(said(check(twelve, &buffer)), Ok(()));
    assert_eq!(reciprocal_by_both(twelve, &buffer, 27, 1 << 27), Ok(Ulps(1 << 25)));
    let short = &buffer[..13311];
    assert_eq!(said(check(twelve, short)), Err((2, 0)));
    assert_eq!(node_by_both(twelve, short, 0), Err((2, 0)));
    assert_eq!(word_bytes(twelve, short, 0), []);
    assert_eq!(reciprocal_by_both(twelve, short, 27, 1 << 27), Err((2, 0)));
}

#[test]
fn nodes_and_words_at_the_end() {
    assert_eq!(node_by_both(PLAIN, &TWO, 4), Ok(TableUnits(64)));
    assert_eq!(node_by_both(PLAIN, &TWO, 5), Err((3, 0)));
    assert_eq!((word_bytes(PLAIN, &TWO, 1), word_range(PLAIN, &TWO, 1)), (&TWO[..2], 0..2));
    assert_eq!((word_bytes(PLAIN, &TWO, 3), word_range(PLAIN, &TWO, 3)), (&TWO[2..], 2..3));
    assert_eq!((word_bytes(PLAIN, &TWO, 4), word_range(PLAIN, &TWO, 4)), (&TWO[..0], 0..0));
}

#[test]
fn operands_at_the_limits() {
    assert_eq!(reciprocal_by_both(PLAIN, &TWO, 6, 64), Ok(Ulps(32)));
    assert_eq!(reciprocal_by_both(PLAIN, &TWO, 6, 127), Ok(Ulps(16)));
    assert_eq!(reciprocal_by_both(PLAIN, &TWO, 0, 1), Err((4, 0)));
    assert_eq!(reciprocal_by_both(PLAIN, &TWO, 64, 1 << 63), Err((4, 0)));
    assert_eq!(reciprocal_by_both(PLAIN, &TWO, 7, 127), Err((5, 0)));
    assert_eq!(reciprocal_by_both(PLAIN, &TWO, 7, 256), Err((5, 0)));
}

#[test]
fn wrong_words() {
    let last = [0x02, 0x75, 0x8B];
    assert_eq!(said(check(PLAIN, &last)), Err((6, 3)));
    assert_eq!(node_by_both(PLAIN, &last, 3), Err((6, 3)));
    assert_eq!(node_by_both(PLAIN, &last, 2), Ok(TableUnits(86)));
    assert_eq!(reciprocal_by_both(PLAIN, &last, 7, 135), Ok(Ulps(30)));
    assert_eq!(reciprocal_by_both(PLAIN, &last, 7, 223), Err((6, 3)));
    assert_eq!(word_bytes(PLAIN, &last, 3), [0x8B]); // the word is not judged
    assert_eq!(said(check(PLAIN, &[0x00, 0x00, 0x00])), Err((6, 1)));
    assert_eq!(said(check(PLAIN, &[0x06, 0x75, 0x8A])), Err((6, 0)));
}

#[test]
fn full_roms() {
    let mut rom = [0xA5; 4];
    assert_eq!(said(build(PLAIN, &mut rom)), Ok(()));
    assert_eq!(rom, [0x02, 0x75, 0x8A, 0x00]);
    assert_eq!(said(check(PLAIN, &rom)), Ok(()));
    assert_eq!(said(check(PLAIN, &[0x02, 0x75, 0x8A, 0x00, 0x01])), Err((7, 4)));
    assert_eq!(said(check(PLAIN, &[0x02, 0x75, 0x8B, 0x01])), Err((6, 3)));
    // The other calls do not look at the tail.
    let worn = [0x02, 0x75, 0x8A, 0xFF];
    assert_eq!(node_by_both(PLAIN, &worn, 3), Ok(TableUnits(74)));
    assert_eq!(word_bytes(PLAIN, &worn, 3), [0x8A]);
    assert_eq!(reciprocal_by_both(PLAIN, &worn, 7, 255), Ok(Ulps(16)));
}

#[test]
fn errors_the_tables_invite() {
    // A node rounded down or to nearest: 102.
    assert_eq!(node_by_both(PLAIN, &TWO, 1), Ok(TableUnits(103)));
    assert_eq!(said(check(PLAIN, &[0x02, 0x65, 0x8A])), Err((6, 1)));
    // R rounded to nearest: 31.
    assert_eq!(reciprocal_by_both(PLAIN, &TWO, 7, 135), Ok(Ulps(30)));
    // Node 0 with an implied leading one: 64.
    assert_eq!(node_by_both(PLAIN, &TWO, 0), Ok(TableUnits(128)));
    // The word after the last taken as node 2^k.
    for after in [0x00, 0xA8, 0xFF] {
        let longer = [0x02, 0x75, 0x8A, after];
        assert_eq!(node_by_both(PLAIN, &longer, 4), Ok(TableUnits(64)));
        assert_eq!(reciprocal_by_both(PLAIN, &longer, 7, 255), Ok(Ulps(16)));
    }
    // A long operand rounded to 2k + 3 fraction bits: it leaves the table, or is cut too high.
    assert_eq!(reciprocal_by_both(PLAIN, &TWO, 63, u64::MAX), Ok(Ulps(16)));
    assert_eq!(reciprocal_by_both(PLAIN, &TWO, 63, (134 << 56) - 1), Ok(Ulps(31)));
}
