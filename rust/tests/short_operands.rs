//! Operands with fewer fraction bits than the 2k + b that a format looks at: they are padded with zeros.
#![forbid(unsafe_code)]

mod common;

use common::{both, every_format, image, is_near, kept, rule, said};
use yildegga::{reciprocal, BoundTable, Format, Ulps};

/// What is given for an operand that keeps its limits, through a bound table too.
fn given(format: Format, image: &[u8], n: u32, x: u64) -> Ulps {
    let answer = reciprocal(format, image, n, x);
    assert_eq!(BoundTable::new(format, image).reciprocal(n, x), answer);
    answer.unwrap_or_else(|refused| panic!("{format:?}, n = {n}, X = {x}: {refused}"))
}

/// R is the rule's, less than an ulp off, and that of the operand which the caller has padded, to as many bits as are
/// looked at and to 63.
fn see(format: Format, image: &[u8], n: u32, x: u64) {
    let r = given(format, image, n, x);
    assert_eq!(r, rule(format, n, x), "{format:?}, n = {n}, X = {x}");
    assert!(is_near(format.precision(), n, x, r), "{format:?}, n = {n}, X = {x}: {r:?}");
    for longer in [kept(format), 63] {
        assert_eq!(given(format, image, longer, x << (longer - n)), r, "{format:?}, n = {n}, X = {x}, padded to {longer}");
    }
}

/// All of them up to precision 8, with other guard bits than two and three up to precision 5, and from there those next
/// to the ends and some between, at each number of fraction bits.
#[test]
fn are_served() {
    let mut state = 1u64;
    for format in every_format() {
        let image = image(format);
        let all = if (format.table_guard_bits(), format.input_guard_bits()) == (2, 3) { 8 } else { 5 };
        for n in 1..kept(format) {
            let one = 1u64 << n;
            if format.precision() <= all {
                (one..2 * one).for_each(|x| see(format, &image, n, x));
            } else {
                [one, one + 1, 2 * one - 2, 2 * one - 1].into_iter().for_each(|x| see(format, &image, n, x));
                for _ in 0..300 {
                    state = state.wrapping_mul(6364136223846793005).wrapping_add(1442695040888963407);
                    see(format, &image, n, one + (state >> (64 - n)));
                }
            }
        }
    }
}

#[test]
fn at_the_ends() {
    for format in every_format() {
        let (k, image) = (format.precision(), image(format));
        for n in 1..kept(format) {
            let one = 1u64 << n;
            assert_eq!(said(reciprocal(format, &image, n, one)), Ok(Ulps(2 << (2 * k))), "{format:?}, n = {n}");
            assert!(reciprocal(format, &image, n, 2 * one - 1).is_ok_and(|r| r >= Ulps(1 << (2 * k))), "{format:?}, n = {n}");
            for x in [0, 1, one - 1, 2 * one, 1 << 63, u64::MAX] {
                assert_eq!(said(reciprocal(format, &image, n, x)), Err((5, 0)), "{format:?}, n = {n}, X = {x}");
            }
        }
        for x in [0, 1, 2, 1 << 63, u64::MAX] {
            assert_eq!(said(reciprocal(format, &image, 0, x)), Err((4, 0)), "{format:?}, X = {x}");
            assert_eq!(said(reciprocal(format, &image, 64, x)), Err((4, 0)), "{format:?}, X = {x}");
        }
    }
}

/// Bits written to the right of 64, which has 6 fraction bits, leave R as it is where the one that precision 2 still
/// looks at is zero.
#[test]
fn with_bits_to_the_right() {
    let (format, two) = (Format::plain(2), image(Format::plain(2)));
    assert_eq!(given(format, &two, 6, 64), Ulps(32));
    assert_eq!((given(format, &two, 7, 128), given(format, &two, 7, 129)), (Ulps(32), Ulps(31)));
    assert_eq!((given(format, &two, 8, 256), given(format, &two, 8, 257), given(format, &two, 8, 258)), (Ulps(32), Ulps(32), Ulps(31)));
    assert_eq!(given(format, &two, 63, (1 << 63) + (1 << 56) - 1), Ulps(32));
    assert_eq!(given(format, &two, 63, (1 << 63) + (1 << 56)), Ulps(31));

    // One more is looked at with four input guard bits, and two with five.
    let (eight, nine) = (format.with_guard_bits(2, 4), format.with_guard_bits(2, 5));
    assert_eq!((given(eight, &two, 7, 128), given(eight, &two, 8, 257), given(eight, &two, 9, 513)), (Ulps(32), Ulps(31), Ulps(32)));
    assert_eq!((given(nine, &two, 8, 256), given(nine, &two, 9, 513), given(nine, &two, 10, 1025)), (Ulps(32), Ulps(31), Ulps(32)));
    assert_eq!((given(nine, &two, 63, (1 << 63) + (1 << 54) - 1), given(nine, &two, 63, (1 << 63) + (1 << 54))), (Ulps(32), Ulps(31)));
}

/// The significand of an `f32`, with its leading one, is an operand of 23 fraction bits. Precision 12 looks at 27.
#[test]
fn significands_of_binary32() {
    for format in both(12) {
        let twelve = image(format);
        let r = |float: f32| given(format, &twelve, 23, 1 << 23 | u64::from(float.to_bits() % (1 << 23)));
        assert_eq!((r(1.0), r(1.5), r(3.0)), (Ulps(33554432), Ulps(22369621), Ulps(22369621)));
        assert_eq!(r(2.0 - f32::EPSILON), Ulps(16777217));
        assert_eq!(r(1.0 + f32::EPSILON), Ulps(33554428));
    }
}
