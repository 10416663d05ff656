//! Tails, what stands in a buffer past the image: zeros written by the builder to the buffer's end, and read by the check; the other calls do
//! not depend on them. Lengths of 0 to 80 bytes go through a block of 64 bytes, one of 8 and single bytes, one after the other. Before the tail
//! stand the filling bits of an image, for which the same holds.
use crate::both::{told, Both};
use crate::fences::calls;
use crate::independent::{is_usual, kept, power, rom, table, Judged};
use crate::lent::{Buffer, Guards};
use crate::library::{Answer, Format};
use crate::random::Random;
use crate::work::{share, Counted};

/// The lengths of tails: each `step`-th, and with other guard bits at the greater precisions each fifth of these.
fn lengths(format: Format, step: usize) -> impl Iterator<Item = usize> {
    (0..=80).step_by(step * if is_usual(format) || format.precision <= 6 { 1 } else { 5 })
}

/// A format, and how many bytes after a multiple of 64 a buffer starts: one start alone where the lengths are not all.
fn works(formats: &[Format], step: usize, starts: impl Fn(Format) -> Vec<usize>) -> Vec<(Format, usize)> {
    let starts = |format| if step == 1 { starts(format) } else { vec![0] };
    formats.iter().rev().flat_map(|format| starts(*format).into_iter().map(move |start| (*format, start))).collect()
}

/// Some of the 64 bytes at which a buffer may start, the first and the last of a block of 8 and of the line among them.
const SOME: [usize; 8] = [0, 1, 7, 8, 15, 31, 32, 63];

/// Where buffers start that are checked. The words of long images take most of the time.
fn checked_at(format: Format) -> Vec<usize> {
    match (is_usual(format), format.form, format.precision) {
        (true, 0, ..=9) => (0..64).collect(),
        (true, 0, _) | (true, _, ..=6) => SOME.to_vec(),
        (true, _, _) | (false, _, ..=6) => vec![0, 31],
        (false, _, _) => vec![7],
    }
}

/// Where buffers start in which is built.
fn built_at(format: Format) -> Vec<usize> {
    match (is_usual(format), format.form) {
        (true, 0) => (0..64).collect(),
        (true, _) => SOME.to_vec(),
        (false, _) => vec![0, 31],
    }
}

/// A buffer whose content changes, and how it is judged.
struct Changed {
    buffer: Buffer,
    judged: Judged,
    cases: u64,
}

impl Changed {
    fn new(guards: Guards, format: Format, start: usize, content: &[u8]) -> Changed {
        Changed { buffer: Buffer::new(guards, start, content), judged: Judged::new(format, content, content.len()), cases: 0 }
    }

    fn flip(&mut self, bit: usize) {
        self.buffer.flip(bit);
        self.judged.again(self.buffer.bytes(), bit);
    }

    /// The check.
    fn check(&mut self) -> Result<(), String> {
        let mut both = Both::new(self.buffer.lent(), &self.judged, self.buffer.bytes());
        both.check()?;
        self.cases += both.cases;
        Ok(())
    }

    /// The calls that look at nothing behind the words: about the last of them.
    fn others(&mut self) -> Result<(), String> {
        let format = self.judged.format;
        let last = power(format.precision) as u32;
        let mut both = Both::new(self.buffer.lent(), &self.judged, self.buffer.bytes());
        both.node(last - 1)?;
        both.node(last)?;
        both.word_bytes(last - 1)?;
        both.word_bytes(last)?;
        both.reciprocal(kept(format), (2 << kept(format)) - 1)?;
        self.cases += both.cases;
        Ok(())
    }

    /// The number of cases, where nothing was written.
    fn unwritten(self) -> Counted {
        let (format, bytes) = (self.judged.format, self.buffer.bytes());
        self.buffer.as_kept(|| format!("the calls but build, {format}, on {}", told(format, bytes)))?;
        Ok(self.cases)
    }
}

/// Images built over bytes of which none is zero in the tail: after it stand the image and zeros, and the guard bytes. Where the buffer is too
/// short by a byte, or there is no such precision, every byte stays.
pub fn built(guards: Guards, formats: &[Format], step: usize) -> Counted {
    share(&works(formats, step, built_at), |&(format, start)| {
        let image = &table(format).image;
        let mut random = Random::new(start as u64);
        let mut cases = 0;
        for more in lengths(format, step) {
            let length = image.len() + more;
            let content: Vec<u8> = random.bytes(image.len()).into_iter().chain(random.bytes(more).into_iter().map(|b| b | 16)).collect();
            let mut buffer = Buffer::new(guards, start, &content);
            for precision in [0, 13 + more as u32] {
                let none = Format { precision, ..format };
                Both::new(buffer.lent(), &Judged::new(none, &content, length), &content).build()?;
                buffer.as_kept(|| format!("build, {none}, length {length}, {start} bytes after a multiple of 64"))?;
            }
            Both::new(buffer.lent(), &Judged::new(format, &content, length), &content).build()?;
            buffer.awaits(&rom(format, length));
            buffer.as_kept(|| format!("build, {format}, length {length}, {start} bytes after a multiple of 64"))?;
            cases += 3;
        }
        let short = random.bytes(image.len() - 1);
        let mut buffer = Buffer::new(guards, start, &short);
        Both::new(buffer.lent(), &Judged::new(format, &short, short.len()), &short).build()?;
        buffer.as_kept(|| format!("build, {format}, a byte too short, {start} bytes after a multiple of 64"))?;
        Ok(cases + 1)
    })
}

/// Full ROMs, which pass the check, and every single bit behind their words changed; the other calls once with each byte changed.
pub fn one_bit(guards: Guards, formats: &[Format], step: usize) -> Counted {
    share(&works(formats, step, checked_at), |&(format, start)| {
        let image = &table(format).image;
        let mut cases = 0;
        for more in lengths(format, step) {
            let mut changed = Changed::new(guards, format, start, &rom(format, image.len() + more));
            changed.check()?;
            changed.others()?;
            for bit in table(format).bits.len()..8 * (image.len() + more) {
                changed.flip(bit);
                changed.check()?;
                if bit % 8 == (bit / 8 + start) % 8 {
                    changed.others()?;
                }
                changed.flip(bit);
            }
            changed.check()?;
            cases += changed.unwritten()?;
        }
        Ok(cases)
    })
}

/// Full ROMs in which several bits behind the words are set, of which the lowest byte is named, and the same with a wrong word, which is named
/// before them.
pub fn several(guards: Guards, formats: &[Format], step: usize) -> Counted {
    share(&works(formats, step, checked_at), |&(format, start)| {
        let image = &table(format).image;
        let bits = table(format).bits.len() as u64;
        let mut random = Random::new(start as u64 ^ 77);
        let mut cases = 0;
        for more in lengths(format, step).filter(|more| *more > 0) {
            let mut changed = Changed::new(guards, format, start, &rom(format, image.len() + more));
            let behind = 8 * (image.len() + more) as u64 - bits;
            for _ in 0..12 {
                let mut tail: Vec<usize> = (0..1 + random.below(5)).map(|_| (bits + random.below(behind)) as usize).collect();
                tail.sort_unstable();
                tail.dedup();
                let word = [0, bits - 1, random.below(bits)][random.below(3) as usize] as usize;
                tail.iter().for_each(|bit| changed.flip(*bit));
                changed.check()?;
                changed.flip(word);
                changed.check()?;
                changed.others()?;
                tail.iter().for_each(|bit| changed.flip(*bit));
                changed.check()?;
                changed.flip(word);
            }
            cases += changed.unwritten()?;
            // Every byte is drawn, and the front of the tail is zero up to a drawn place.
            let mut content = [&image[..], &random.bytes(more)].concat();
            let zeros = random.below(more as u64 + 1) as usize;
            content[image.len()..image.len() + zeros].fill(0);
            let mut changed = Changed::new(guards, format, start, &content);
            changed.check()?;
            changed.others()?;
            cases += changed.unwritten()?;
        }
        Ok(cases)
    })
}

/// The images that have filling bits, by their form, their table guard bits and their precisions.
const FILLED: [(u32, u32, &[u32]); 5] = [
    (0, 3, &[1, 2]),
    (0, 4, &[1]),
    (1, 2, &[1, 3, 4, 5, 7, 8, 9, 11, 12]),
    (1, 3, &[1, 2, 3, 4, 5, 6, 7, 8, 9, 10, 11, 12]),
    (1, 4, &[2, 3, 4, 6, 7, 8, 10, 11, 12]),
];

/// Whether an image has filling bits. It is compared with the list of those that have.
fn has_filling(format: Format) -> bool {
    let Format { precision, form, table_guard_bits, .. } = format;
    let listed = FILLED.iter().any(|(f, a, precisions)| (*f, *a) == (form, table_guard_bits) && precisions.contains(&precision));
    assert_eq!(table(format).bits.len() % 8 != 0, listed, "{format}: whether its image has filling bits");
    listed
}

/// The filling bits, each alone and in every combination, with no tail, with zeros and with a byte that is not zero behind the image: where
/// every word is right the check names the image's last byte, and no other call is changed. The same with a wrong word, which is named before
/// it. Where not the whole is asked for, each alone.
pub fn filling(guards: Guards, formats: &[Format], starts: usize, whole: bool) -> Counted {
    let filled = formats.iter().filter(|format| has_filling(**format));
    let works: Vec<(Format, usize)> = filled.flat_map(|format| (0..starts).map(move |start| (*format, 5 * start % 16))).collect();
    share(&works, |&(format, start)| {
        let (bits, image) = (table(format).bits.len(), &table(format).image);
        let named = Answer { number: 7, place: image.len() as u64 - 1, value: 0 };
        let some = 1 << format.precision.saturating_sub(if whole { 6 } else { 2 });
        let mut random = Random::new(start as u64);
        let mut cases = 0;
        for more in [0usize, 1, 2, 8, 64, 80] {
            for stray in [None, Some(0), more.checked_sub(1), Some(random.below(more as u64 + 1) as usize)] {
                if stray.is_some_and(|at| at >= more) {
                    continue;
                }
                let mut content = rom(format, image.len() + more);
                if let Some(at) = stray {
                    content[image.len() + at] = 128 >> random.below(8);
                }
                let mut changed = Changed::new(guards, format, start, &content);
                let filling: Vec<usize> = (bits..8 * image.len()).collect();
                for set in (1u32..1 << filling.len()).filter(|set| whole || set.is_power_of_two()) {
                    let those: Vec<usize> = filling.iter().copied().filter(|bit| set >> (bit - bits) & 1 == 1).collect();
                    those.iter().for_each(|bit| changed.flip(*bit));
                    assert_eq!(changed.judged.check(), named);
                    changed.check()?;
                    changed.others()?;
                    for word in [0, bits - 1, random.below(bits as u64) as usize] {
                        changed.flip(word);
                        changed.check()?;
                        changed.others()?;
                        changed.flip(word);
                    }
                    if set.is_power_of_two() {
                        let mut both = Both::new(changed.buffer.lent(), &changed.judged, changed.buffer.bytes());
                        calls(&mut both, some)?;
                        changed.cases += both.cases;
                    }
                    those.iter().for_each(|bit| changed.flip(*bit));
                }
                cases += changed.unwritten()?;
            }
        }
        Ok(cases)
    })
}

/// Buffers of some MiB: built over drawn bytes, checked whole, and with one bit changed at the tail's ends, about multiples of 64 bytes
/// counted from the buffer's start and from the tail's, and at drawn places.
pub fn long(guards: Guards, lengths: &[usize]) -> Counted {
    let plain = [1, 4, 7, 10, 2, 8, 12].map(Format::plain);
    let works: Vec<(Format, usize)> =
        plain.into_iter().chain([1, 8, 12].map(Format::full)).flat_map(|format| lengths.iter().map(move |l| (format, *l))).collect();
    share(&works, |&(format, length)| {
        let mut random = Random::new(length as u64 + u64::from(format.precision));
        let past = table(format).image.len();
        let start = random.below(64) as usize;
        let mut buffer = Buffer::new(guards, start, &random.bytes(length));
        let judged = Judged::new(format, &[], length);
        Both::new(buffer.lent(), &judged, &[]).build()?;
        buffer.awaits(&rom(format, length));
        buffer.as_kept(|| format!("build, {format}, length {length}, {start} bytes after a multiple of 64"))?;
        let mut changed = Changed { judged: Judged::new(format, buffer.bytes(), length), buffer, cases: 1 };
        changed.check()?;
        let mut places = vec![past, past + 1, length - 2, length - 1];
        for _ in 0..30 {
            let drawn = past + 65 + random.below((length - past - 130) as u64) as usize;
            places.push(drawn);
            for multiple in [drawn / 64 * 64, past + (drawn - past) / 64 * 64] {
                places.extend([multiple - 1, multiple, multiple + 1]);
            }
        }
        let drawn_bits: Vec<usize> = places.into_iter().map(|at| 8 * at + random.below(8) as usize).collect();
        for bit in (table(format).bits.len()..8 * past).chain(drawn_bits) {
            changed.flip(bit);
            changed.check()?;
            changed.others()?;
            changed.flip(bit);
        }
        changed.unwritten()
    })
}
