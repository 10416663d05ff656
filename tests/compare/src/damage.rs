//! Images with wrong words: one bit changed, several, and buffers of any content.
use crate::both::{told, Both};
use crate::independent::{
    both_forms, bytes_of, kept, numerator, power, precisions, table, width, words, Judged, INPUT_GUARD_BITS, MOST_FRACTION_BITS,
    TABLE_GUARD_BITS,
};
use crate::lent::{Buffer, Guards};
use crate::library::Format;
use crate::random::Random;
use crate::short::longer;
use crate::work::{share, Counted};

/// A buffer that starts as a right image, and how its words are judged.
struct Damaged {
    format: Format,
    buffer: Buffer,
    judged: Judged,
    random: Random,
    cases: u64,
}

impl Damaged {
    fn new(guards: Guards, format: Format, seed: u64) -> Damaged {
        let mut random = Random::new(seed);
        let image = &table(format).image;
        let content = [&image[..], &random.bytes(seed as usize % 3)].concat();
        let buffer = Buffer::new(guards, random.below(16) as usize, &content);
        Damaged { format, buffer, judged: Judged::new(format, &content, content.len()), random, cases: 0 }
    }

    /// Changes one bit.
    fn flip(&mut self, bit: usize) {
        self.buffer.flip(bit);
        self.judged.again(self.buffer.bytes(), bit);
    }

    /// Gives the front another content.
    fn put(&mut self, content: &[u8]) {
        self.buffer.put(content);
        self.judged = Judged::new(self.format, self.buffer.bytes(), self.buffer.bytes().len());
    }

    /// Compares the check, and nodes and operands at the given words, those beside them, and elsewhere.
    fn compare(&mut self, words: &[usize], whole: bool) -> Result<(), String> {
        let k = self.format.precision;
        let last = power(k) as u32;
        let lent = self.buffer.lent();
        let mut both = Both::new(lent, &self.judged, self.buffer.bytes());
        both.check()?;
        let mut near: Vec<u32> = if whole {
            (0..=last + 1).collect()
        } else {
            let beside = words.iter().flat_map(|j| (*j as u32).saturating_sub(2)..=*j as u32 + 2);
            let elsewhere = [0, last - 1, last, self.random.below(u64::from(last)) as u32];
            beside.chain(elsewhere).collect()
        };
        near.sort_unstable();
        near.dedup();
        for j in near {
            both.node(j)?;
            both.word_bytes(j)?;
            if j >= last {
                continue;
            }
            let kept = kept(self.format);
            let steps = 1u64 << (kept - k);
            let left = (u64::from(last) + u64::from(j)) * steps;
            let right = self.random.below(u64::from(MOST_FRACTION_BITS - kept) + 1) as u32;
            let (n, ones) = (kept + right, (1 << right) - 1);
            let within = 1 + self.random.below(steps - 2);
            // Each end of the piece alone and with as little or as much to its right as there can be, and a place within.
            both.reciprocal(kept, left)?;
            both.reciprocal(n, left << right)?;
            both.reciprocal(n, ((left + within) << right) + self.random.below(ones + 1))?;
            both.reciprocal(kept, left + steps - 1)?;
            both.reciprocal(n, ((left + steps - 1) << right) + ones)?;
            // A short operand in the piece, from the fewest fraction bits with which one stands at node j; the same with bits to its right.
            let fewest = (k - k.min(j.trailing_zeros())).max(1);
            let n = fewest + self.random.below(u64::from(kept - fewest)) as u32;
            let x = (u64::from(last + j) << n >> k) + self.random.below(1 << n.saturating_sub(k));
            let (longer_n, longer_x) = longer(&mut self.random, self.format, n, x);
            both.alike(n, x, longer_n, longer_x)?;
        }
        self.cases += both.cases;
        self.buffer.as_kept(|| format!("the calls but build, {}, on {}", self.format, told(self.format, self.buffer.bytes())))
    }
}

/// Some bits of one image, the `step`-th ones from one up to another.
struct Bits {
    format: Format,
    from: usize,
    to: usize,
    step: usize,
}

/// One bit changed: in each format the `step`-th bits of the image, filling bits too.
pub fn one_bit(guards: Guards, formats: &[Format], step: impl Fn(Format) -> usize) -> Counted {
    let mut works = Vec::new();
    for &format in formats.iter().rev() {
        let bits = 8 * table(format).image.len();
        works.extend((0..bits).step_by(1024).map(|from| Bits { format, from, to: bits.min(from + 1024), step: step(format) }));
    }
    share(&works, |work| {
        let mut damaged = Damaged::new(guards, work.format, work.from as u64);
        for bit in (work.from..work.to).step_by(work.step) {
            damaged.flip(bit);
            damaged.compare(&[bit / width(work.format)], work.format.precision <= 6 && work.step == 1)?;
            damaged.flip(bit);
        }
        Ok(damaged.cases)
    })
}

/// Two bits changed: every two of the shortest images, then as many random ones, of which some lie in one word or in neighbours.
pub fn two_bits(guards: Guards, formats: &[Format], every_up_to: u32, random: impl Fn(Format) -> usize) -> Counted {
    let mut works = Vec::new();
    for &format in formats.iter().rev() {
        if format.precision <= every_up_to {
            works.push((format, 0, 0));
        } else {
            let many = random(format);
            works.extend((0..many).step_by(1000).map(|from| (format, from, many.min(from + 1000))));
        }
    }
    share(&works, |&(format, from, to)| {
        let (bits, width) = (8 * table(format).image.len(), width(format));
        let mut damaged = Damaged::new(guards, format, 7 + from as u64);
        let both_changed = |damaged: &mut Damaged, one: usize, other: usize| {
            damaged.flip(one);
            damaged.flip(other);
            damaged.compare(&[one / width, other / width], format.precision <= 3)?;
            damaged.flip(one);
            damaged.flip(other);
            Ok::<(), String>(())
        };
        if to == 0 {
            for other in 0..bits {
                (0..other).try_for_each(|one| both_changed(&mut damaged, one, other))?;
            }
        }
        for at in from..to {
            let one = damaged.random.below(bits as u64) as usize;
            let reach = [width, 3 * width, bits][at % 3].min(bits);
            let other = (one + 1 + damaged.random.below(reach as u64 - 1) as usize) % bits;
            both_changed(&mut damaged, one, other)?;
        }
        Ok(damaged.cases)
    })
}

/// Contents that a wrong construction leaves, and random ones.
pub fn any_content(guards: Guards, formats: &[Format], random: impl Fn(Format) -> usize + Sync) -> Counted {
    let works: Vec<Format> = formats.iter().rev().copied().collect();
    share(&works, |&format| {
        let k = format.precision;
        let image = &table(format).image;
        let length = image.len();
        let mut damaged = Damaged::new(guards, format, 31);
        let above = 2 * k + format.table_guard_bits; // the place of the leading one of all nodes but the first
        let beyond = |j: usize, c: u64| u128::from(c) * (power(k) + j as u128) - numerator(format); // what rounding up adds to c × i
        let mut contents: Vec<Vec<u8>> = vec![
            vec![0; length],
            vec![0xFF; length],
            image.iter().map(|byte| !byte).collect(),
            image.iter().rev().copied().collect(),
            [&image[1..], &image[..1]].concat(),
            [&image[length - 1..], &image[..length - 1]].concat(),
            packed(format, |j, c| c - u64::from(beyond(j, c) > 0)), // rounded down
            packed(format, |j, c| c - u64::from(2 * beyond(j, c) > power(k) + j as u128)), // rounded to nearest
            packed(format, |_, c| c + 1),
            packed(format, |j, c| if j == 0 { 1 << (above - 1) } else { c }),
            packed(format, |_, c| c / 2),            // plain, with the leading one that is left out
            packed(format, |_, c| c % (1 << above)), // full, with the leading one left out
            packed(format, |j, c| if j == 1 << k { 0 } else { c }), // full, with the last node left out
            packed(format, |_, c| (c + 1) / 2),      // with a table guard bit less, right but for its rounding
            packed(format, |_, c| 2 * c),            // with one more
        ];
        let others = precisions().map(|precision| Format { precision, ..format }).chain([Format { form: 1 - format.form, ..format }]);
        let others = others.chain(TABLE_GUARD_BITS.map(|table_guard_bits| Format { table_guard_bits, ..format }));
        contents.extend(others.map(|other| table(other).image.iter().cycle().take(length).copied().collect()));
        for _ in 0..random(format) {
            // Right up to some byte, and random from there on up to another.
            let from = damaged.random.below(length as u64) as usize;
            let to = from + 1 + damaged.random.below((length - from) as u64) as usize;
            contents.push([&image[..from], &damaged.random.bytes(to - from), &image[to..]].concat());
            contents.push(damaged.random.bytes(length));
        }
        for content in contents {
            damaged.put(&content);
            let words: Vec<usize> = (0..4).map(|_| damaged.random.below(1 << k) as usize).collect();
            damaged.compare(&words, k <= 6)?;
        }
        Ok(damaged.cases)
    })
}

/// An image of other values than the nodes', each cut to a word.
fn packed(format: Format, value: impl Fn(usize, u64) -> u64) -> Vec<u8> {
    let table = table(format);
    let stored = &table.nodes[..table.bits.len() / width(format)];
    let bits: Vec<bool> = (stored.iter().enumerate())
        .flat_map(|(j, c)| {
            let value = value(j, *c);
            (0..width(format)).rev().map(move |at| value / (1 << at) % 2 == 1)
        })
        .collect();
    bytes_of(&bits)
}

/// Every content of the images of one byte and of three, of which one is full: the check, and of the rest one node and one operand in turn; of
/// the full image every node, and an operand now and then.
pub fn every_content(guards: Guards, step: usize) -> Counted {
    let [one, full] = both_forms(Format::plain(1));
    let mut works: Vec<(Format, u32, u32)> = vec![(one, 0, 256)];
    for format in [Format::plain(2), full] {
        works.extend((0..1 << 24).step_by(1 << 16).map(|from| (format, from, from + (1 << 16))));
    }
    share(&works, |&(format, from, to)| {
        let mut damaged = Damaged::new(guards, format, 0);
        for content in (from..to).step_by(step) {
            if format == one {
                damaged.put(&[content as u8]);
                damaged.compare(&[], true)?;
                continue;
            }
            damaged.put(&content.to_be_bytes()[1..]);
            let lent = damaged.buffer.lent();
            let mut both = Both::new(lent, &damaged.judged, damaged.buffer.bytes());
            both.check()?;
            if format == full {
                (0..3).try_for_each(|j| both.node(j))?;
            } else {
                both.node(content / 8 % 5)?;
            }
            if format != full || content % 7 == 0 {
                // It is drawn by the content, and has from one fraction bit to as many as are looked at.
                let kept = kept(format);
                let lacking = content / 512 % kept;
                both.reciprocal(kept - lacking, ((1 << kept) + u64::from(content / 4 % (1 << kept))) >> lacking)?;
            }
            damaged.cases += both.cases;
        }
        damaged.buffer.as_kept(|| format!("check, node and reciprocal, {format}, on the contents {from:06x} to {:06x}", to - 1))?;
        Ok(damaged.cases)
    })
}

/// Every content of the plain images of two bytes, which have filling bits: each call at every node, word and piece. Of the other images of
/// precisions 1 and 2 with more than two table guard bits, which have three to seven bytes, some contents, of which most words are right.
pub fn other_contents(guards: Guards, step: usize, some: usize) -> Counted {
    let mut works: Vec<(Format, usize)> = Vec::new();
    for (precision, table_guard_bits) in [(1, 3), (1, 4), (2, 3), (2, 4)] {
        for input in INPUT_GUARD_BITS {
            let [plain, full] = both_forms(Format::plain(precision).with_guard_bits(table_guard_bits, input));
            works.extend((0..16).flat_map(|part| [(plain, part), (full, part)]));
        }
    }
    share(&works, |&(format, part)| {
        let length = table(format).image.len();
        let mut damaged = Damaged::new(guards, format, 16 * length as u64 + part as u64);
        if length == 2 {
            for content in (part..1 << 16).step_by(16 * step) {
                damaged.put(&(content as u16).to_be_bytes());
                damaged.compare(&[], true)?;
            }
            return Ok(damaged.cases);
        }
        for _ in 0..some {
            let mut bits = table(format).bits.clone();
            let filling = 8 * length - bits.len();
            for j in 0..words(format) as usize {
                let word = j * width(format)..(j + 1) * width(format);
                match damaged.random.below(8) {
                    0 => word.for_each(|bit| bits[bit] = damaged.random.below(2) == 1),
                    1 => bits[word.start + damaged.random.below(width(format) as u64) as usize] ^= true,
                    2 => bits[word.end - 1] ^= true,
                    _ => {}
                }
            }
            let dirty = damaged.random.below(2) == 1;
            bits.extend((0..filling).map(|_| dirty && damaged.random.below(2) == 1));
            damaged.put(&bytes_of(&bits));
            damaged.compare(&[], true)?;
        }
        Ok(damaged.cases)
    })
}
