//! Every refusal at and on both sides of its limit, with huge values too, and the order where several apply. In both
//! forms, and with all guard bits.
#![forbid(unsafe_code)]

mod common;

use common::{both, every_format, formats, guarded, image, is_near, kept, length, rule, said, value, width, words};
use yildegga::{build, check, last_node, node, reciprocal, word_bytes, word_range, BoundTable, Form, Format, Refusal, TableUnits, Ulps};
use yildegga::{GREATEST_INPUT_GUARD_BITS, GREATEST_PRECISION, GREATEST_TABLE_GUARD_BITS, MOST_FRACTION_BITS};
use yildegga::{LEAST_FRACTION_BITS, LEAST_INPUT_GUARD_BITS, LEAST_PRECISION, LEAST_TABLE_GUARD_BITS};

/// Refusals 1 and 18, as docs/SCOPE.md, "Turned back, in checking order", has them.
fn no_table(format: Format) -> Option<(u32, u64)> {
    if !(1..=12).contains(&format.precision()) {
        Some((1, 0))
    } else if !(2..=4).contains(&format.table_guard_bits()) || !(3..=5).contains(&format.input_guard_bits()) {
        Some((18, 0))
    } else {
        None
    }
}

/// Guard bits of which one number or both are not served.
const NO_GUARD_BITS: [(u32, u32); 16] = [
    (0, 0),
    (0, 3),
    (1, 3),
    (5, 3),
    (6, 4),
    (2, 0),
    (2, 2),
    (3, 1),
    (2, 6),
    (4, 7),
    (1, 2),
    (5, 6),
    (1 << 31, 3),
    (2, u32::MAX),
    (256 + 2, 3),
    (2, 65536 + 3),
];

/// Every format that is served, and some whose precision is none or whose guard bits are not served.
fn asked() -> impl Iterator<Item = Format> {
    let none = [0, 13, 14, 31, 32, 63, 64, 255, 256, 257, 1 << 16, (1 << 16) + 1, 1 << 31, u32::MAX - 1, u32::MAX];
    let neither = [0, 13, u32::MAX].into_iter().flat_map(both).map(|format| format.with_guard_bits(5, 2));
    let no_guard_bits =
        formats().flat_map(|format| NO_GUARD_BITS.into_iter().map(move |(table, input)| format.with_guard_bits(table, input)));
    none.into_iter().flat_map(both).chain(neither).chain(no_guard_bits).chain(every_format())
}

/// For each format, the image with a tail of two bytes, of which the first is not zero, at lengths about the image's.
/// Where there is no such image, bytes of any kind.
fn each_buffer(mut visit: impl FnMut(Format, &[u8])) {
    for format in asked() {
        let mut bytes = if no_table(format).is_none() { image(format) } else { vec![0x5A; Format::LONGEST] };
        let whole = bytes.len();
        bytes.extend([0xFF, 0x00]);
        for length in [0, 1, whole / 2, whole - 1, whole, whole + 1, whole + 2] {
            visit(format, &bytes[..length]);
        }
    }
}

/// The refusals that every call on an image tests first: 1, 18 and 2.
fn first(format: Format, buffer: &[u8]) -> Option<(u32, u64)> {
    no_table(format).or_else(|| (buffer.len() < length(format)).then_some((2, 0)))
}

#[test]
fn of_an_image() {
    each_buffer(|format, buffer| {
        let expected = first(format, buffer).map_or(Ok(()), Err);
        let has_tail = |length: &usize| buffer.len() > *length;
        let checked = expected.and_then(|()| format.image_length().filter(has_tail).map_or(Ok(()), |length| Err((7, length as u64))));
        assert_eq!(said(check(format, buffer)), checked, "{format:?}, {} bytes", buffer.len());
        let mut built = vec![0xA5; buffer.len()];
        assert_eq!(said(build(format, &mut built)), expected, "{format:?}, {} bytes", buffer.len());
        assert_eq!(said(check(format, &built)), expected, "{format:?}, {} bytes", buffer.len());
        assert_eq!(format.image_length().is_none(), matches!(expected, Err((1 | 18, 0))));
    });
}

/// Each bit of tails up to 70 bytes, and the first and last bits of longer ones: its byte is named, the lower of two
/// too, and a wrong word before either.
#[test]
fn of_a_tail() {
    for format in every_format() {
        let length = length(format);
        let last_word = u64::from(words(format)) - 1;
        let its_end = words(format) as usize * width(format) - 1;
        let usual = (format.table_guard_bits(), format.input_guard_bits()) == (2, 3);
        let lengths: &[usize] = if usual { &[1, 2, 8, 63, 64, 65, 70, 4096, 100_000] } else { &[1, 2, 65] };
        for &more in lengths {
            let mut rom = vec![0; length + more];
            build(format, &mut rom).unwrap();
            let last = 8 * more - 1;
            for bit in (0..8 * more).filter(|bit| more <= 70 || [0, 1, last / 2, last].contains(bit)) {
                let at = length + bit / 8;
                rom[at] ^= 0x80 >> (bit % 8);
                assert_eq!(said(check(format, &rom)), Err((7, at as u64)), "{format:?}, {more} bytes more, bit {bit}");
                let end = rom[length + more - 1];
                rom[length + more - 1] |= 0x10; // a wrong byte behind it, or the same
                assert_eq!(said(check(format, &rom)), Err((7, at as u64)), "{format:?}, {more} bytes more, bit {bit} and the last byte");
                rom[length + more - 1] = end;
                rom[its_end / 8] ^= 0x80 >> (its_end % 8); // the last bit of the last word
                assert_eq!(said(check(format, &rom)), Err((6, last_word)), "{format:?}, {more} bytes more, bit {bit} and the last word");
                rom[its_end / 8] ^= 0x80 >> (its_end % 8);
                rom[at] = 0;
            }
            assert_eq!(said(check(format, &rom)), Ok(()), "{format:?}, {more} bytes more");
        }
    }
}

#[test]
fn of_a_node() {
    let mut numbers = [0; 19];
    each_buffer(|format, buffer| {
        let last = 1u32 << format.precision().min(12);
        for j in [0, 1, last - 1, last, last + 1, 1 << 31, u32::MAX - 1, u32::MAX] {
            let expected = match first(format, buffer) {
                Some(refused) => Err(refused),
                None if j > last => Err((3, 0)),
                None => Ok(TableUnits(value(format, j))),
            };
            numbers[expected.map_or_else(|(number, _)| number as usize, |_| 0)] += 1;
            assert_eq!(said(node(format, buffer, j)), expected, "{format:?}, {} bytes, node {j}", buffer.len());
            assert_eq!(said(BoundTable::new(format, buffer).node(j)), expected);
            let range = match expected {
                Ok(_) if j < words(format) => {
                    let (width, j) = (width(format), j as usize);
                    j * width / 8..(j * width + width - 1) / 8 + 1
                }
                _ => 0..0,
            };
            assert_eq!(word_range(format, buffer, j), range, "{format:?}, {} bytes, word {j}", buffer.len());
            assert_eq!(word_bytes(format, buffer, j), &buffer[range]);
        }
    });
    assert!([0, 1, 2, 3, 18].iter().all(|&number| numbers[number] > 100), "{numbers:?}");
}

#[test]
fn of_an_operand() {
    let mut numbers = [0; 19];
    each_buffer(|format, buffer| {
        let kept = if no_table(format).is_none() { kept(format) } else { 27 };
        for n in [0, 1, 2, kept - 1, kept, kept + 1, 31, 32, 62, 63, 64, 65, 127, 128, 1 << 31, u32::MAX] {
            let one = 1u64.checked_shl(n).unwrap_or(1 << 63);
            let ends = [one - 1, one, one + 1, one | (one - 1), (one | (one - 1)).wrapping_add(1)];
            for x in ends.into_iter().chain([0, 1, 1 << 32, 1 << 63, u64::MAX - 1, u64::MAX]) {
                let expected = match first(format, buffer) {
                    Some((number, _)) => number,
                    None if n < 1 || n > 63 => 4,
                    None if u128::from(x) < 1 << n || u128::from(x) >= 2 << n => 5,
                    None => 0,
                };
                numbers[expected as usize] += 1;
                let answer = said(reciprocal(format, buffer, n, x));
                assert_eq!(said(BoundTable::new(format, buffer).reciprocal(n, x)), answer);
                match answer {
                    Ok(r) => {
                        assert_eq!(expected, 0, "{format:?}, {} bytes, n = {n}, X = {x}", buffer.len());
                        assert_eq!(r, rule(format, n, x), "{format:?}, n = {n}, X = {x}");
                        assert!(is_near(format.precision(), n, x, r), "{format:?}, n = {n}, X = {x}");
                    }
                    Err(refused) => assert_eq!(refused, (expected, 0), "{format:?}, {} bytes, n = {n}, X = {x}", buffer.len()),
                }
            }
        }
    });
    assert!([0, 1, 2, 4, 5, 18].iter().all(|&number| numbers[number] > 100), "{numbers:?}");
}

/// Each bit of the words of the small images damaged: the word that holds it is named, wherever it is read and nowhere
/// else.
#[test]
fn of_a_wrong_word() {
    for format in (1..=5).flat_map(both).flat_map(guarded) {
        let (k, right) = (format.precision(), image(format));
        for bit in 0..words(format) as usize * width(format) {
            let mut wrong = right.clone();
            wrong[bit / 8] ^= 0x80 >> (bit % 8);
            let bad = (bit / width(format)) as u32;
            assert_eq!(said(check(format, &wrong)), Err((6, bad.into())), "{format:?}, bit {bit}");
            let table = BoundTable::new(format, &wrong);
            for j in 0..=1 << k {
                let value = said(node(format, &wrong, j));
                assert_eq!(value, if j == bad { Err((6, bad.into())) } else { said(node(format, &right, j)) });
                assert_eq!(said(table.node(j)), value);
                if j == 1 << k {
                    continue; // no operand stands at the last node
                }
                let reads_it = j == bad || j + 1 == bad;
                for n in [k, kept(format) - 1, kept(format), 63] {
                    let x = ((1 << k) + u64::from(j)) << (n - k); // node j itself; the word of j + 1 is read too
                    let r = said(reciprocal(format, &wrong, n, x));
                    assert_eq!(r, if reads_it { Err((6, bad.into())) } else { Ok(rule(format, n, x)) }, "{format:?}, bit {bit}, n = {n}");
                    assert_eq!(said(table.reciprocal(n, x)), r);
                }
            }
        }
    }
}

/// Where every word is wrong, the lower limits still come first.
#[test]
fn before_a_wrong_word() {
    for format in every_format() {
        let k = format.precision();
        let (a, b) = (format.table_guard_bits(), format.input_guard_bits());
        let wrong: Vec<u8> = image(format).iter().map(|byte| !byte).collect();
        let last = 1 << k;
        assert_eq!(said(check(format, &wrong)), Err((6, 0)));
        assert_eq!(said(check(format, &wrong[1..])), Err((2, 0)));
        assert_eq!(said(node(format, &wrong, last - 1)), Err((6, u64::from(last) - 1)));
        let of_the_last = if format.form() == Form::Plain { Ok(TableUnits(1 << (2 * k + a))) } else { Err((6, last.into())) };
        assert_eq!(said(node(format, &wrong, last)), of_the_last); // plain, it reads no word
        assert_eq!(said(node(format, &wrong, last + 1)), Err((3, 0)));
        for n in [k, kept(format) - 1, kept(format)] {
            assert_eq!(said(reciprocal(format, &wrong, n, 1 << n)), Err((6, 0)));
            assert_eq!(said(reciprocal(format, &wrong, n, (2 << n) - 1)), Err((6, u64::from(last) - 1)));
            assert_eq!(said(reciprocal(format, &wrong, n, (1 << n) - 1)), Err((5, 0)));
            assert_eq!(said(reciprocal(format, &wrong, n, 2 << n)), Err((5, 0)));
        }
        assert_eq!(said(reciprocal(format, &wrong, 1, 3)), Err((6, u64::from(last) / 2))); // the node in the middle
        assert_eq!(said(reciprocal(format, &wrong, 0, 0)), Err((4, 0)));
        assert_eq!(said(reciprocal(format, &wrong, 0, 1)), Err((4, 0)));
        assert_eq!(said(reciprocal(format, &wrong, 64, 0)), Err((4, 0)));
        assert_eq!(said(reciprocal(format, &wrong[1..], 64, 0)), Err((2, 0)));
        for (table, input) in [(1, b), (5, b), (a, 2), (a, 6), (u32::MAX, u32::MAX)] {
            let no_guard_bits = format.with_guard_bits(table, input);
            assert_eq!(said(reciprocal(no_guard_bits, &wrong[1..], 64, 0)), Err((18, 0)));
            assert_eq!(said(reciprocal(no_guard_bits, &wrong, 64, 0)), Err((18, 0)));
            assert_eq!(said(reciprocal(no_guard_bits, &wrong, k, 0)), Err((18, 0)));
            assert_eq!(said(reciprocal(no_guard_bits, &wrong, k, 1 << k)), Err((18, 0)));
            assert_eq!(said(node(no_guard_bits, &wrong, last + 1)), Err((18, 0)));
            assert_eq!(said(node(no_guard_bits, &wrong, last - 1)), Err((18, 0)));
            assert_eq!(said(check(no_guard_bits, &wrong)), Err((18, 0)));
            assert_eq!(word_bytes(no_guard_bits, &wrong, 0), []);
            assert_eq!(word_range(no_guard_bits, &wrong, 0), 0..0);
            for no_precision in both(k + 12) {
                assert_eq!(said(reciprocal(no_precision.with_guard_bits(table, input), &wrong[1..], 64, 0)), Err((1, 0)));
            }
        }
    }
}

#[test]
fn limits_by_name() {
    for (least, below) in both(LEAST_PRECISION).into_iter().zip(both(LEAST_PRECISION - 1)) {
        assert_eq!((below.image_length(), least.image_length()), (None, Some(length(least))));
    }
    for (greatest, above) in both(GREATEST_PRECISION).into_iter().zip(both(GREATEST_PRECISION + 1)) {
        assert_eq!((greatest.image_length(), above.image_length()), (Some(length(greatest)), None));
    }
    assert_eq!((Format::LONGEST_PLAIN, Format::LONGEST_FULL), (length(Format::plain(12)), length(Format::full(12))));
    assert_eq!(every_format().map(length).max(), Some(Format::LONGEST));
    for format in formats() {
        let with = |table, input| format.with_guard_bits(table, input).image_length();
        assert_eq!(with(LEAST_TABLE_GUARD_BITS, LEAST_INPUT_GUARD_BITS), Some(length(format)));
        assert_eq!(with(GREATEST_TABLE_GUARD_BITS, GREATEST_INPUT_GUARD_BITS), Some(length(format.with_guard_bits(4, 5))));
        assert_eq!((with(LEAST_TABLE_GUARD_BITS - 1, 3), with(GREATEST_TABLE_GUARD_BITS + 1, 3)), (None, None));
        assert_eq!((with(2, LEAST_INPUT_GUARD_BITS - 1), with(2, GREATEST_INPUT_GUARD_BITS + 1)), (None, None));
    }
    for format in both(2) {
        let two = image(format);
        assert_eq!(said(reciprocal(format, &two, LEAST_FRACTION_BITS, 2)), Ok(Ulps(32)));
        assert_eq!(said(reciprocal(format, &two, LEAST_FRACTION_BITS - 1, 1)), Err((4, 0)));
        assert_eq!(said(reciprocal(format, &two, MOST_FRACTION_BITS, 1 << 63)), Ok(Ulps(32)));
        assert_eq!(said(reciprocal(format, &two, MOST_FRACTION_BITS + 1, 1 << 63)), Err((4, 0)));
    }
    for format in every_format() {
        let (k, image) = (format.precision(), image(format));
        let last = last_node(k).unwrap();
        assert!(node(format, &image, last).is_ok());
        assert_eq!(said(node(format, &image, last + 1)), Err((3, 0)));
        // At a node itself the reciprocal is the node, in ulps rounded down.
        for j in 0..last {
            let TableUnits(c) = node(format, &image, j).unwrap();
            let x = ((1 << k) + u64::from(j)) << (63 - k);
            assert_eq!(said(reciprocal(format, &image, 63, x)), Ok(Ulps(c / format.table_units_in_ulp().unwrap())), "{format:?}, node {j}");
        }
    }
}

/// The name, the number and the text of each refusal, as a caller meets them.
#[test]
fn in_words() {
    let plain = Format::plain(2);
    let two = [0x02, 0x75, 0x8B];
    let tail = [0x02, 0x75, 0x8A, 0x00, 0x01];
    let filling = [0x81, 0x64, 0x20];
    let met = [
        (check(Format::plain(0), &two).unwrap_err(), Refusal::Precision, 1, "refusal 1: the precision is below 1 or above 12"),
        (
            check(plain.with_guard_bits(2, 6), &two).unwrap_err(),
            Refusal::GuardBits,
            18,
            "refusal 18: the table guard bits are not 2 to 4, or the input guard bits not 3 to 5",
        ),
        (check(plain, &[]).unwrap_err(), Refusal::ShortBuffer, 2, "refusal 2: the buffer is shorter than the image"),
        (node(plain, &two, 5).unwrap_err(), Refusal::NodeNumber, 3, "refusal 3: the node number is above 2^k"),
        (
            reciprocal(plain, &two, 0, 1).unwrap_err(),
            Refusal::FractionBits,
            4,
            "refusal 4: the fraction bits are fewer than 1 or more than 63",
        ),
        (reciprocal(plain, &two, 7, 127).unwrap_err(), Refusal::NotNormalised, 5, "refusal 5: the operand is not from 2^n to 2^(n+1) - 1"),
        (check(plain, &two).unwrap_err(), Refusal::WrongWord, 6, "refusal 6 at node 3: the word is not the construction's"),
        (
            check(plain, &tail).unwrap_err(),
            Refusal::TailNotZero,
            7,
            "refusal 7 at byte 4: a filling bit or a byte past the image is not zero",
        ),
        (
            check(Format::full(1), &filling).unwrap_err(),
            Refusal::TailNotZero,
            7,
            "refusal 7 at byte 2: a filling bit or a byte past the image is not zero",
        ),
    ];
    for (refused, refusal, number, text) in met {
        assert_eq!((refused.refusal(), refused.number(), refusal.number()), (refusal, number, number));
        // As any error, through `?`, from any thread.
        let boxed: Box<dyn std::error::Error + Send + Sync> = refused.into();
        assert_eq!(boxed.to_string(), text);
        assert_eq!(boxed.downcast_ref(), Some(&refused));
    }
}
