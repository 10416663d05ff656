//! Short operands, with fewer than the 2k + b fraction bits that the table looks at: every one of them, and what may stand to their right.
//! The limits of an operand.
use crate::independent::{both_forms, interpolated, is_usual, kept, precisions, table, FORMS, LEAST_FRACTION_BITS, MOST_FRACTION_BITS};
use crate::lent::{Buffer, Guards};
use crate::library::{self, Answer, Format};
use crate::operands::{every_operand, others, served, Pieces};
use crate::random::Random;
use crate::work::{share, Counted};

/// Plain formats, each with the numbers of fraction bits of its short operands.
fn shorts(plain: Vec<Format>) -> impl Iterator<Item = (Format, u32)> {
    plain.into_iter().flat_map(|plain| (LEAST_FRACTION_BITS..kept(plain)).rev().map(move |n| (plain, n)))
}

/// The precisions up to one in the plain form.
fn plain_up_to(greatest: u32) -> Vec<Format> {
    precisions().rev().filter(move |k| *k <= greatest).map(Format::plain).collect()
}

/// Every short operand at the precisions up to one, in the plain form; in the full one, as R does not depend on the form, all where they are few
/// and a part of many.
pub fn every_one(guards: Guards, up_to: u32) -> Counted {
    let works: Vec<Pieces> = shorts(plain_up_to(up_to)).flat_map(|(plain, n)| Pieces::all(plain, n, 16)).collect();
    share(&works, |pieces| every_operand(guards, pieces))
}

/// With the other guard bits, in both forms, every short operand at the precisions up to 8 and every one of up to 16 fraction bits, and of longer
/// ones some pieces.
pub fn other_ones() -> Counted {
    let works: Vec<Pieces> = shorts(others()).flat_map(|(plain, n)| Pieces::some(plain, n, 4, 1 << 14)).collect();
    share(&works, |pieces| every_operand(Guards::Bytes, pieces))
}

/// How many of an operand's fraction bits stand behind those that the table looks at.
fn behind(format: Format, n: u32) -> u32 {
    n.saturating_sub(kept(format))
}

/// A number of fraction bits above n.
fn drawn_length(random: &mut Random, n: u32) -> u32 {
    n + 1 + random.below(u64::from(MOST_FRACTION_BITS - n)) as u32
}

/// A short operand with a drawn number of bits to its right that change nothing: zeros up to 2k + b fraction bits, and drawn ones behind them.
pub fn longer(random: &mut Random, format: Format, n: u32, x: u64) -> (u32, u64) {
    let length = drawn_length(random, n);
    (length, x * (1 << (length - n)) + random.below(1 << behind(format, length)))
}

/// The short operands in one format with one number of fraction bits, at most. R does not depend on the form, and of the full one fewer are
/// taken; so they are with the other guard bits than two and three.
fn many(format: Format) -> u64 {
    match (is_usual(format), format.form) {
        (true, 0) => 1 << 16,
        (true, _) => 1 << 13,
        (false, _) => 1 << 10,
    }
}

/// Short operands at the precisions up to one, in both forms, with zeros to their right, up to 2k + 3 fraction bits and beyond, and with other
/// bits behind those: the answer is that of the operand alone. Where n is small, each operand has each number of bits to its right.
pub fn to_the_right(guards: Guards, up_to: u32) -> Counted {
    beyond(guards, plain_up_to(up_to))
}

/// The same with the other guard bits, up to 2k + b fraction bits and beyond.
pub fn others_to_the_right() -> Counted {
    beyond(Guards::Bytes, others())
}

fn beyond(guards: Guards, plain: Vec<Format>) -> Counted {
    let works: Vec<(Format, u32)> = shorts(plain).flat_map(|(plain, n)| both_forms(plain).map(|format| (format, n))).collect();
    share(&works, |&(format, n)| {
        let k = format.precision;
        let mut random = Random::new(u64::from(64 * k + n));
        let mut buffer = Buffer::new(guards, n as usize % 16, &table(format).image);
        let lent = buffer.lent();
        let (least, many) = (1u64 << n, many(format));
        let mut cases = 0;
        for at in 0..least.min(many) {
            let x = match at {
                0 => least,
                1 => 2 * least - 1,
                _ if least <= many => least + at - 1,
                _ => least + random.below(least),
            };
            let alone = library::reciprocal(format, lent, n, x);
            if alone.number != 0 {
                return Err(format!("reciprocal, {format}, its image, n {n}, x {x}: the library gives {alone:?}, expected is number 0"));
            }
            let some = [kept(format), MOST_FRACTION_BITS, drawn_length(&mut random, n)];
            let lengths = if n <= 9 { (n + 1..=MOST_FRACTION_BITS).collect() } else { some.to_vec() };
            for length in lengths {
                let rights = 1u64 << behind(format, length);
                let others = [0, rights - 1, random.below(rights)];
                for bits in &others[..if rights == 1 { 1 } else { 3 }] {
                    let longer = x * (1 << (length - n)) + bits;
                    let found =
                        [library::reciprocal(format, lent, length, longer), library::bound_reciprocal(format, lent, length, longer)];
                    if found != [alone; 2] {
                        return Err(format!(
                            "reciprocal, {format}, its image: n {length}, x {longer} gives {found:?}, the second bound; \
                             without the bits to the right of {x} it is {alone:?}"
                        ));
                    }
                    cases += 1;
                }
            }
        }
        buffer.as_kept(|| format!("reciprocals at {format}, n {n} and more"))?;
        Ok(cases)
    })
}

fn refused(number: u32, place: u64) -> Answer {
    Answer { number, place, value: 0 }
}

/// The limits of n and X in each format, on its image and on one of which each word is wrong. Refusals 4 and 5 are the same in every
/// format and come before 6.
pub fn limits(guards: Guards, plain: Vec<Format>) -> Counted {
    let formats = plain.into_iter().flat_map(|plain| FORMS.map(|form| Format { form, ..plain }));
    let works: Vec<(Format, bool)> = formats.flat_map(|format| [(format, true), (format, false)]).collect();
    share(&works, |&(format, right)| {
        let k = format.precision;
        let image = &table(format).image;
        let content = if right { image.clone() } else { image.iter().map(|byte| !byte).collect() };
        let mut buffer = Buffer::new(guards, k as usize, &content);
        let lent = buffer.lent();
        let mut cases = 0;
        let mut compare = |n, x, expected| {
            let found = [library::reciprocal(format, lent, n, x), library::bound_reciprocal(format, lent, n, x)];
            cases += 1;
            if found == [expected; 2] {
                return Ok(());
            }
            let which = if right { "its image" } else { "wrong words" };
            Err(format!(
                "reciprocal, {format}, {which}, n {n}, x {x}: the library gives {found:?}, the second bound, expected is {expected:?}"
            ))
        };
        for n in [0, 64, 65, 66, 127, 128, 129, 255, 256, 257, 319, 65536, 65537, 1 << 31, (1 << 31) + 1, u32::MAX - 1, u32::MAX] {
            for x in [0, 1, 2, 3, (1 << n.min(63)) - 1, 1 << n.min(63), 1 << 63, u64::MAX] {
                compare(n, x, refused(4, 0))?;
            }
        }
        for n in 1..=63 {
            let (least, greatest) = (1u64 << n, u64::MAX >> (63 - n));
            for x in [0, 1, least / 2, least - 2, least - 1] {
                compare(n, x, refused(5, 0))?;
            }
            if n < 63 {
                for x in [greatest + 1, greatest + 2, 2 * greatest + 1, u64::MAX] {
                    compare(n, x, refused(5, 0))?;
                }
            }
            let last = (1 << k) - (1 << k.saturating_sub(n)); // the last node at which an operand stands
            let lowest = if kept(format) <= n { 1 << (2 * k) } else { interpolated(format, n, greatest) };
            compare(n, least, if right { served(1 << (2 * k + 1)) } else { refused(6, 0) })?;
            compare(n, greatest, if right { served(lowest) } else { refused(6, last) })?;
        }
        buffer.as_kept(|| format!("reciprocals at {format}, at the limits of operands"))?;
        Ok(cases)
    })
}
