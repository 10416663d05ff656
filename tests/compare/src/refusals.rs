//! Numbers at and beyond each limit, in every combination.
use crate::both::{told, Both};
use crate::images::same_length;
use crate::independent::{
    both_forms, bytes_of, constant_node, has_table, image_refusals, is_precision, kept, length, node_refusals, power, reciprocal_refusals,
    rom, table, Judged, Refusal, Table, FORMS, GREATEST, INPUT_GUARD_BITS, LEAST, MOST_FRACTION_BITS, TABLE_GUARD_BITS,
};
use crate::lent::{Buffer, Guards};
use crate::library::{self, wide, Answer, Format, Lent, Part, TableUnits};
use crate::random::Random;
use crate::work::{share, Counted};
use std::ptr;
use std::sync::atomic::{AtomicBool, Ordering};

/// The precisions and numbers that are none.
fn asked_precisions() -> Vec<u32> {
    let beyond = [20, 31, 32, 33, 63, 64, 65, 127, 128, 255, 256, 257, 258, 268, 65538];
    let far = [(1 << 31) - 1, 1 << 31, (1 << 31) + 2, u32::MAX - 1, u32::MAX];
    (0..=16).chain(beyond).chain(far).collect()
}

/// The same in every form that has a number here.
fn asked_formats() -> impl Iterator<Item = Format> {
    asked_precisions().into_iter().flat_map(|precision| FORMS.map(|form| Format { form, ..Format::plain(precision) }))
}

/// Table and input guard bits, of which one number or both are served, beside the limits, huge, or served in fewer bits.
fn asked_guard_bits() -> Vec<(u32, u32)> {
    let table = [0, 1, 2, 3, 4, 5, 6, 34, 258, 65539, (1 << 31) + 4, u32::MAX];
    let input = [0, 2, 3, 4, 5, 6, 7, 35, 260, 65541, (1 << 31) + 3, u32::MAX];
    table.into_iter().flat_map(|a| input.map(|b| (a, b))).collect()
}

/// The format with a table that is nearest to one that may have none.
fn nearest(format: Format) -> Format {
    Format {
        precision: format.precision.clamp(LEAST, GREATEST),
        table_guard_bits: format.table_guard_bits.clamp(*TABLE_GUARD_BITS.start(), *TABLE_GUARD_BITS.end()),
        input_guard_bits: format.input_guard_bits.clamp(*INPUT_GUARD_BITS.start(), *INPUT_GUARD_BITS.end()),
        ..format
    }
}

/// Node numbers about the last one, and powers of two and their neighbours.
fn asked_nodes(k: u32) -> Vec<u32> {
    let last = power(k.min(31)) as u32;
    let powers = (0..32).flat_map(|at| [(1u32 << at) - 1, 1 << at, (1 << at) + 1]);
    let mut nodes: Vec<u32> = powers.chain([last / 2 + 3, last - 1, last, last + 1, last + 2, u32::MAX - 1, u32::MAX]).collect();
    nodes.extend((8..32).map(|at| (1u32 << at) + (last - 1) % (1 << at))); // the same as a node in fewer bits
    sorted(nodes)
}

/// Numbers of fraction bits: all about the limits, and others that are the same in fewer bits.
fn asked_fraction_bits() -> Vec<u32> {
    let beyond = [95, 96, 99, 127, 128, 135, 255, 256, 263, 319, 511, 512, 65535, 65536, 65543, 65599];
    let far = [(1 << 31) - 1, 1 << 31, (1 << 31) + 7, (1 << 31) + 63, u32::MAX - 56, u32::MAX - 1, u32::MAX];
    (0..=72).chain(beyond).chain(far).collect()
}

/// Operands: powers of two and their neighbours, and random ones of every length.
fn asked_operands() -> Vec<u64> {
    let mut random = Random::new(5);
    let powers = (0..64).flat_map(|at| [(1u64 << at) - 1, 1 << at, (1 << at) + 1]);
    let within: Vec<u64> = (0..64).map(|at| (1 << at) + random.below(1 << at)).collect();
    sorted(powers.chain(within).chain([u64::MAX - 1, u64::MAX]).collect())
}

fn sorted<N: Ord>(mut numbers: Vec<N>) -> Vec<N> {
    numbers.sort_unstable();
    numbers.dedup();
    numbers
}

/// The bytes that a buffer has at most, though it may be said to have more.
const ROOM: usize = 32768;

/// Lengths about each image length, and huge ones. The calls but the builder and the check look at nothing past the image, so that a buffer
/// which has one may be said to have any length: this goes beyond what a caller may do.
fn asked_lengths(format: Format) -> Vec<usize> {
    let k = format.precision;
    let mut lengths = vec![0, 1, 2, 28671, 28672, ROOM, (1 << 31) - 1, 1 << 31];
    lengths.extend([32, 61, 63].iter().flat_map(|at| [(1 << at) - 1, 1 << at, (1 << at) + 1]));
    lengths.extend([usize::MAX - 1, usize::MAX]);
    if is_precision(k) {
        let own = length(format);
        lengths.extend([own / 2, own.saturating_sub(2), own - 1, own, own + 1, own + 8]);
        lengths.extend([8, 16, 32].map(|at| (1 << at) + own - 1)); // too short in fewer bits
        lengths.push(length(Format { precision: k % 12 + 1, ..format }));
        lengths.extend(both_forms(format).map(length)); // that of the other form too
    }
    sorted(lengths)
}

/// What a buffer holds, and whether each of its words is wrong. Where a byte follows the image, it is zero in two of these.
fn contents(format: Format) -> Vec<(Vec<u8>, bool)> {
    let format = if is_precision(format.precision) { format } else { Format { precision: 12, ..format } };
    let image = &table(format).image;
    let mut random = Random::new(u64::from(format.precision));
    let right: Vec<u8> = image.iter().copied().chain(random.bytes(ROOM)).take(ROOM).collect();
    let wrong = right.iter().map(|byte| !byte).collect();
    let full = rom(format, ROOM);
    let mut damaged = full.clone();
    damaged[image.len() / 2] ^= 16;
    vec![(right, false), (wrong, true), (full, false), (damaged, false), (random.bytes(ROOM), false)]
}

/// The refusals in their order.
const ORDER: [u32; 8] = [1, 18, 2, 3, 4, 5, 6, 7];

/// Whether each set of refusals applied to a call: the bits of a set are the places of its refusals in their order.
struct Met(Vec<AtomicBool>);

impl Met {
    fn new() -> Met {
        Met((0..1 << ORDER.len()).map(|_| AtomicBool::new(false)).collect())
    }

    /// The set of one refusal.
    fn of(number: u32) -> usize {
        1 << ORDER.iter().position(|other| *other == number).expect("the number of a refusal")
    }

    fn add(&self, refusals: &[Refusal], wrong: bool, stray: bool) {
        let content = [(6, wrong), (7, stray)];
        let applying = refusals.iter().chain(&content).filter(|(_, applies)| *applies);
        let met = &self.0[applying.map(|(number, _)| Met::of(*number)).sum::<usize>()];
        if !met.load(Ordering::Relaxed) {
            met.store(true, Ordering::Relaxed);
        }
    }

    /// Each refusal applied alone, each two applied together and no other with them, and none did.
    fn all(&self, call: &str, numbers: &[u32]) -> Result<(), String> {
        let alone_or_together = numbers.iter().flat_map(|one| numbers.iter().map(move |other| Met::of(*one) | Met::of(*other)));
        match alone_or_together.chain([0usize]).find(|set| !self.0[*set].load(Ordering::Relaxed)) {
            Some(set) => {
                let those: Vec<u32> = ORDER.into_iter().filter(|number| set & Met::of(*number) != 0).collect();
                Err(format!("{call}: no case has just the refusals {those:?}"))
            }
            None => Ok(()),
        }
    }
}

/// Every call with every combination of the numbers asked, in the plain form; in the others a part of them. In both, each pair of refusals must
/// have been met.
pub fn combinations(guards: Guards, whole: bool) -> Counted {
    let works: Vec<Format> = asked_formats().filter(|format| whole || format.form <= 1).collect();
    let (bits, operands) = (asked_fraction_bits(), asked_operands());
    // What was met in the plain form, and in the full one.
    let [met_image, met_node, met_reciprocal] = [(); 3].map(|()| [Met::new(), Met::new()]);
    let cases = share(&works, |&format| {
        let form = usize::from(format.form != 0);
        let every = match (whole, format.form) {
            (true, 0) => 1,
            (true, 1) => 11,
            (true, _) => 67,
            (false, 0) => 11,
            (false, _) => 61,
        };
        let mut cases = 0;
        let mut random = Random::new(u64::from(format.precision) ^ u64::from(format.form) << 32);
        let kinds = &contents(format)[..if whole { 5 } else { 2 }];
        for (length, (content, wrong)) in asked_lengths(format).into_iter().flat_map(|length| kinds.iter().map(move |kind| (length, kind)))
        {
            let (wrong, there) = (*wrong, length.min(ROOM));
            let mut buffer = Buffer::new(guards, random.below(16) as usize, &content[..there]);
            let lent = Lent { length, ..buffer.lent() };
            let judged = Judged::new(format, &content[..there], length);
            let mut both = Both::new(lent, &judged, &content[..there]);
            let refused = judged.build().number != 0;
            let to_the_end = refused || there == length; // the builder and the check go to a buffer's end where they serve it
            if to_the_end {
                both.check()?;
                met_image[form].add(&image_refusals(format, length), wrong, judged.has_stray());
            }
            for j in asked_nodes(format.precision).into_iter().skip(random.below(every) as usize).step_by(every as usize) {
                both.node(j)?;
                both.word_bytes(j)?;
                met_node[form].add(&node_refusals(format, length, j), wrong, false);
            }
            for n in &bits {
                // 1 always, which alone is normalised with no fraction bits.
                for x in operands.iter().skip(random.below(every) as usize).step_by(every as usize).chain([&1]) {
                    both.reciprocal(*n, *x)?;
                    met_reciprocal[form].add(&reciprocal_refusals(format, length, *n, *x), wrong, false);
                }
            }
            buffer.as_kept(|| format!("the calls but build, {format}, length {length}, on {}", told(format, &content[..there])))?;
            if to_the_end {
                both.build()?;
            }
            cases += both.cases;
            if to_the_end && !refused {
                buffer.awaits(&rom(format, length));
            }
            buffer.as_kept(|| format!("build, {format}, length {length}, on {}", told(format, &content[..there])))?;
        }
        Ok(cases)
    })?;
    for form in 0..2 {
        met_image[form].all("check", &[1, 2, 6])?;
        met_image[form].all("check", &[6, 7])?; // 7 needs bytes past an image: neither 1 nor 2 comes with it
        met_node[form].all("node", &[1, 2, 3, 6])?;
        met_reciprocal[form].all("reciprocal", &[1, 2, 4, 5, 6])?;
    }
    Ok(cases)
}

/// What a buffer holds about an image, and whether each of its words is wrong and a byte behind the image is not zero.
fn about(format: Format) -> [(Vec<u8>, bool, bool); 4] {
    let Table { image, bits, .. } = table(format);
    let wrong = bytes_of(&bits.iter().map(|bit| !bit).collect::<Vec<bool>>());
    let (zeros, others) = ([0; 9], [1, 0x80, 0, 0, 0xFF, 0, 0, 0, 0xA5]);
    [(image, false, zeros), (image, false, others), (&wrong, true, zeros), (&wrong, true, others)]
        .map(|(front, wrong, tail)| ([&front[..], &tail].concat(), wrong, tail == others))
}

/// Guard bits that are served and that are not, in every combination, with precisions, buffers, nodes and operands at and beyond their limits.
/// Where they are not served, refusal 18 comes right after 1 and before all others, in the calls too that have no use for them; an image has no
/// length then, and no bytes are shown. Each pair of it with another refusal must have been met.
pub fn guard_bits(guards: Guards, whole: bool) -> Counted {
    let precisions = if whole { vec![0, 1, 2, 3, 5, 8, 12, 13, 257, 1 << 31, u32::MAX] } else { vec![0, 1, 2, 12, 13] };
    let forms: &[u32] = if whole { &[0, 1, u32::MAX] } else { &[0, 1] };
    let every = if whole { 1 } else { 7 };
    let mut works: Vec<Format> = Vec::new();
    for plain in precisions.into_iter().map(Format::plain) {
        for form in forms {
            let guard_bits = asked_guard_bits().into_iter().step_by(every);
            works.extend(guard_bits.map(|(a, b)| Format { form: *form, ..plain }.with_guard_bits(a, b)));
        }
    }
    let [met_image, met_node, met_reciprocal] = [(); 3].map(|()| [Met::new(), Met::new()]);
    let cases = share(&works, |&format| {
        let form = usize::from(format.form != 0);
        let near = nearest(format);
        let (own, last, kept) = (length(near), power(near.precision) as u32, kept(near));
        let mut random = Random::new(u64::from(format.table_guard_bits) ^ u64::from(format.input_guard_bits) << 32);
        let mut cases = same_length(format)?;
        for (content, wrong, stray) in about(near) {
            for length in [0, 1, own / 2, own - 1, own, own + 1, own + 9] {
                let (content, stray) = (&content[..length], stray && length > own);
                let mut buffer = Buffer::new(guards, random.below(16) as usize, content);
                let judged = Judged::new(format, content, length);
                let mut both = Both::new(buffer.lent(), &judged, content);
                both.check()?;
                met_image[form].add(&image_refusals(format, length), wrong, stray);
                for j in [0, 1, last - 1, last, last + 1, random.next() as u32, u32::MAX] {
                    both.node(j)?;
                    both.word_bytes(j)?;
                    met_node[form].add(&node_refusals(format, length, j), wrong, false);
                }
                for n in [0, 1, near.precision, kept - 1, kept, kept + 1, 63, 64, u32::MAX] {
                    let one = 1u64 << n.min(63);
                    for x in [0, 1, one - 1, one, one + random.below(one), one + (one - 1), one.wrapping_mul(2)] {
                        both.reciprocal(n, x)?;
                        met_reciprocal[form].add(&reciprocal_refusals(format, length, n, x), wrong, false);
                    }
                }
                buffer.as_kept(|| format!("the calls but build, {format}, length {length}, on {}", told(near, content)))?;
                both.build()?;
                cases += both.cases;
                if judged.build().number == 0 {
                    buffer.awaits(&rom(format, length));
                }
                buffer.as_kept(|| format!("build, {format}, length {length}, on {}", told(near, content)))?;
            }
        }
        Ok(cases)
    })?;
    for form in 0..2 {
        met_image[form].all("check", &[1, 18, 2, 6])?;
        met_image[form].all("check", &[1, 18, 6, 7])?; // 7 needs bytes past an image: 2 does not come with it
        met_node[form].all("node", &[1, 18, 2, 3, 6])?;
        met_reciprocal[form].all("reciprocal", &[1, 18, 2, 4, 5, 6])?;
    }
    Ok(cases)
}

/// The registers of a format: the form and the input guard bits are the upper halves of the two.
fn registers(format: Format) -> wide::Format {
    let [table, guard_bits] = [(format.precision, format.form), (format.table_guard_bits, format.input_guard_bits)]
        .map(|(lower, upper)| u64::from(upper) << 32 | u64::from(lower));
    wide::Format(table, guard_bits)
}

/// Whole registers. The halves of a format's are its numbers; of those for numbers of 32 bits the upper half is no part of the number.
pub fn upper_halves(guards: Guards, guard_bits: &[(u32, u32)]) -> Counted {
    let mut random = Random::new(11);
    let mut cases = 0;
    let forms = FORMS.into_iter().chain((3..32).step_by(4).map(|at| 1 << at));
    let formats = forms.flat_map(|form| asked_precisions().into_iter().map(move |precision| Format { form, ..Format::plain(precision) }));
    for format in formats.flat_map(|format| guard_bits.iter().map(move |(a, b)| format.with_guard_bits(*a, *b))) {
        let image = &table(nearest(format)).image;
        let judged = Judged::new(format, image, image.len());
        let image_length = if has_table(format) { image.len() } else { 0 };
        let mut buffer = Buffer::new(guards, 1, image);
        let lent = buffer.lent();
        let asked = registers(format);
        for upper in [1, 1 << 31, u64::from(u32::MAX), random.next() >> 32, random.next() >> 32, random.next() >> 32] {
            for _ in 0..2 {
                let j = random.below((power(format.precision.min(GREATEST)) + 2) as u64) as u32;
                let n = random.below(u64::from(MOST_FRACTION_BITS) + 3) as u32;
                let x = (1 << n.min(63)) + random.below(1 << n.min(63));
                let [wide_j, wide_n] = [j, n].map(|number| u64::from(number) | upper << 32);
                let found = (
                    [wide::build(asked, lent), wide::check(asked, lent)],
                    [wide::node(asked, lent, wide_j), wide::bound_node(asked, lent, wide_j)],
                    [wide::reciprocal(asked, lent, wide_n, x), wide::bound_reciprocal(asked, lent, wide_n, x)],
                    (wide::word_bytes(asked, lent, wide_j), wide::image_length(asked), wide::node_8(wide_j)),
                );
                let expected = (
                    [judged.build(), judged.check()],
                    [judged.node(j); 2],
                    [judged.reciprocal(n, x); 2],
                    (judged.word_bytes(j), image_length, TableUnits { count: constant_node(j) }),
                );
                if found != expected {
                    let inputs = format!("each call, {format}, j {j}, n {n}, x {x}, its image, above the numbers {upper:#x}");
                    return Err(format!("{inputs}: the library gives {found:?}, expected is {expected:?}"));
                }
                cases += 7;
            }
        }
        buffer.as_kept(|| format!("each call, {format}, on its image"))?;
    }
    Ok(cases)
}

/// No bytes at all: NULL with length 0.
pub fn no_bytes() -> Counted {
    let null = Lent { start: ptr::null_mut(), length: 0 };
    let mut cases = 0;
    let others = [(2, 5), (3, 3), (4, 4), (1, 3), (5, 3), (2, 2), (2, 6), (u32::MAX, u32::MAX)];
    let others = asked_formats().flat_map(|format| others.map(|(a, b)| (format.with_guard_bits(a, b), 19)));
    for (format, every) in asked_formats().map(|format| (format, 1)).chain(others) {
        let number = match (is_precision(format.precision), has_table(format)) {
            (true, true) => 2,
            (true, false) => 18,
            (false, _) => 1,
        };
        let refused = Answer { number, place: 0, value: 0 };
        let judged = Judged::new(format, &[], 0);
        let mut both = Both::new(null, &judged, &[]);
        if judged.check() != refused || library::word_bytes(format, null, 0) != (Part { offset: 0, count: 0 }) {
            return Err(format!("NULL with length 0, {format}: expected are {refused:?} and no bytes"));
        }
        both.check()?;
        both.build()?;
        for j in asked_nodes(format.precision).into_iter().step_by(every) {
            both.node(j)?;
            both.word_bytes(j)?;
        }
        for n in asked_fraction_bits() {
            for x in asked_operands().into_iter().step_by(every) {
                both.reciprocal(n, x)?;
            }
        }
        cases += both.cases;
    }
    Ok(cases)
}
