//! Operands on right images: every cut operand, and longer ones at the edges of the pieces.
use crate::independent::{
    both_forms, interpolated, is_usual, kept, nodes, power, precisions, table, with_others, within_an_ulp, MOST_FRACTION_BITS,
};
use crate::lent::{Buffer, Guards};
use crate::library::{self, Answer, Format, Lent};
use crate::random::Random;
use crate::work::{share, Counted};

pub fn served(value: u64) -> Answer {
    Answer { number: 0, place: 0, value }
}

#[cold]
fn differs(format: Format, n: u32, x: u64, found: [Answer; 2], expected: Answer) -> String {
    format!("reciprocal, {format}, its image, n {n}, x {x}: the library gives {found:?}, the second bound, expected is {expected:?}")
}

#[cold]
fn an_ulp_off(format: Format, n: u32, x: u64, r: u64) -> String {
    format!("reciprocal, {format}, its image, n {n}, x {x}: {r} is an ulp off or more, expected is less")
}

/// What the library answers, and what it does through a bound table.
#[inline(always)]
pub fn answered(format: Format, lent: Lent, n: u32, x: u64) -> [Answer; 2] {
    [library::reciprocal(format, lent, n, x), library::bound_reciprocal(format, lent, n, x)]
}

/// Pieces side by side, from one up to another, the operands with n fraction bits in them, and whether these are taken in the full form too.
pub struct Pieces {
    plain: Format,
    n: u32,
    from: u64,
    to: u64,
    full: bool,
}

impl Pieces {
    /// All pieces of a precision, a few hundred thousand operands together; of these each `every`-th and the last in the full form too.
    pub fn all(plain: Format, n: u32, every: u64) -> impl Iterator<Item = Pieces> {
        Pieces::together(plain, n, every, 1 << 18)
    }

    /// All pieces of a precision, so many operands together, or a piece where it has more.
    fn together(plain: Format, n: u32, every: u64, operands: u64) -> impl Iterator<Item = Pieces> {
        let count = 1 << plain.precision;
        let together = (operands >> n.saturating_sub(plain.precision)).clamp(1, count);
        (0..count).step_by(together as usize).map(move |from| {
            let to = from + together;
            Pieces { plain, n, from, to, full: from / together % every == 0 || to == count }
        })
    }

    /// All pieces up to precision 8 in both forms; above, where more than `some` of them have so many operands together, the first, the last and
    /// drawn ones.
    pub fn some(plain: Format, n: u32, some: u64, operands: u64) -> impl Iterator<Item = Pieces> {
        let all: Vec<Pieces> = Pieces::together(plain, n, 1, operands).collect();
        let some = if plain.precision <= 8 { all.len() as u64 } else { some };
        let count = all.len() as u64;
        let mut random = Random::new(u64::from(64 * plain.precision + n));
        let taken: Vec<bool> = (0..count)
            .scan(some.min(count), |left, at| {
                // One of the pieces that remain, but the last one, at the chance that as many are taken as are still asked for.
                let take = at == 0 || at + 1 == count || *left > 1 && random.below(count - 1 - at) < *left - 1;
                *left -= u64::from(take);
                Some(take)
            })
            .collect();
        all.into_iter().zip(taken).filter(|(_, taken)| *taken).map(|(pieces, _)| pieces)
    }
}

/// Every operand with 2k + 3 fraction bits at every precision, in both forms.
pub fn every_cut_operand() -> Counted {
    let works: Vec<Pieces> = precisions().rev().map(Format::plain).flat_map(|plain| Pieces::all(plain, kept(plain), 1)).collect();
    share(&works, |pieces| every_operand(Guards::Bytes, pieces))
}

/// Every precision in the plain form with the other guard bits than two and three.
pub fn others() -> Vec<Format> {
    precisions().rev().map(Format::plain).flat_map(with_others).collect()
}

/// With the other guard bits, in both forms, every operand with 2k + b fraction bits at the precisions up to 8, and above some pieces whole, and
/// of each the ends and the middle.
pub fn other_cut_operands() -> Counted {
    let works: Vec<Pieces> = others().into_iter().flat_map(|plain| Pieces::some(plain, kept(plain), 10, 1 << 18)).collect();
    let whole = share(&works, |pieces| every_operand(Guards::Bytes, pieces))?;
    let above: Vec<Format> = others().into_iter().filter(|plain| plain.precision > 8).flat_map(both_forms).collect();
    Ok(whole + share(&above, |&format| ends_of_pieces(format))?)
}

/// In each piece the operands at its ends, in its middle and at a drawn place.
fn ends_of_pieces(format: Format) -> Counted {
    let mut longer = Longer::new(format, kept(format));
    let steps = longer.steps();
    for j in 0..1 << longer.k {
        let within = longer.random.below(steps);
        for f in Longer::distinct(vec![0, 1, 2, steps / 2 - 1, steps / 2, steps - 2, steps - 1, within], steps) {
            longer.compare(longer.cut(j, f), &[0])?;
        }
    }
    longer.buffer.as_kept(|| format!("reciprocals at {format}, n {}", longer.n))?;
    Ok(longer.cases)
}

/// The line between two nodes is drawn step by step: at each operand the point falls by the same fraction of an ulp, and R is the
/// whole ulps below it, in either form. All of it is held in whole parts, of which a table unit has as many as a piece has operands. With
/// fewer than k fraction bits an operand stands at a node, but not at each.
pub fn every_operand(guards: Guards, pieces: &Pieces) -> Counted {
    let (k, n) = (pieces.plain.precision, pieces.n);
    let nodes = nodes(pieces.plain);
    let (steps, apart) = (1u64 << n.saturating_sub(k), 1usize << k.saturating_sub(n));
    let units = power(pieces.plain.table_guard_bits) as u64; // in an ulp
    let ulp = (units * steps) as i64;
    let one = 1u64 << (n + 2 * k + 1);
    let [plain, full] = both_forms(pieces.plain);
    let mut buffers = [plain, full].map(|format| Buffer::new(guards, (pieces.from % 16) as usize, &table(format).image));
    let [in_plain, in_full] = buffers.each_mut().map(Buffer::lent);
    let mut cases = 0;
    for j in (pieces.from..pieces.to).step_by(apart) {
        let (high, low) = (nodes[j as usize], nodes[j as usize + 1]);
        let fall = (high - low) as i64;
        let (mut whole, mut parts) = (high / units, (high % units * steps) as i64);
        let left = ((1 << k) + j) * steps / apart as u64;
        for x in left..left + steps {
            let expected = served(whole);
            let found = answered(plain, in_plain, n, x);
            if found != [expected; 2] {
                return Err(differs(plain, n, x, found, expected));
            }
            if (found[0].value * x).abs_diff(one) >= x {
                return Err(an_ulp_off(plain, n, x, found[0].value));
            }
            if pieces.full {
                let found = answered(full, in_full, n, x);
                if found != [expected; 2] {
                    return Err(differs(full, n, x, found, expected));
                }
            }
            parts -= fall;
            while parts < 0 {
                parts += ulp;
                whole -= 1;
            }
        }
        assert_eq!((whole, parts), (low / units, (low % units * steps) as i64), "the line does not end at its node");
        cases += steps * if pieces.full { 2 } else { 1 };
    }
    for buffer in buffers {
        buffer.as_kept(|| format!("reciprocals at {plain} and in full words, n {n}, pieces {} to {}", pieces.from, pieces.to - 1))?;
    }
    Ok(cases)
}

/// How many pieces and operands are taken of those that there are. R does not depend on the form, and of the full one a sample is taken; so it is
/// in both forms with the other guard bits than two and three.
struct Sample {
    /// The least number of longer operands with one number of fraction bits, where there are that many.
    many: u64,
    /// The distance of the pieces whose edges are taken.
    apart: usize,
}

impl Sample {
    fn of(format: Format) -> Sample {
        match (is_usual(format), format.form) {
            (true, 0) => Sample { many: 1 << 17, apart: 1 },
            (true, _) => Sample { many: 1 << 14, apart: 1 << format.precision.saturating_sub(6) },
            (false, _) => Sample { many: 1 << 12, apart: 1 << format.precision.saturating_sub(5) },
        }
    }
}

/// Longer operands in formats with every number of fraction bits.
pub fn long_operands(formats: &[Format]) -> Counted {
    let works: Vec<(Format, u32)> =
        formats.iter().flat_map(|format| (kept(*format) + 1..=MOST_FRACTION_BITS).map(move |n| (*format, n))).collect();
    share(&works, |&(format, n)| {
        let mut longer = Longer::new(format, n);
        if 1 << n <= longer.sample.many {
            longer.every_one()?;
        } else {
            longer.edges()?;
            longer.more()?;
        }
        longer.buffer.as_kept(|| format!("reciprocals at {format}, n {n}"))?;
        Ok(longer.cases)
    })
}

/// Operands of one format with n fraction bits, made of a cut operand and the bits to its right.
struct Longer {
    format: Format,
    k: u32,
    n: u32,
    /// The bits to the right of a cut operand.
    right: u32,
    sample: Sample,
    buffer: Buffer,
    random: Random,
    cases: u64,
}

impl Longer {
    fn new(format: Format, n: u32) -> Longer {
        let k = format.precision;
        let buffer = Buffer::new(Guards::Bytes, n as usize % 16, &table(format).image);
        let random = Random::new(u64::from(64 * k + n));
        Longer { format, k, n, right: n - kept(format), sample: Sample::of(format), buffer, random, cases: 0 }
    }

    /// The cut operands of a piece.
    fn steps(&self) -> u64 {
        1 << (self.k + self.format.input_guard_bits)
    }

    /// The cut operand at f in piece j.
    fn cut(&self, j: u64, f: u64) -> u64 {
        ((1 << self.k) + j) * self.steps() + f
    }

    /// The operands of a cut operand t with these bits to its right: equal R, less than an ulp off, and the answer of t alone.
    fn compare(&mut self, t: u64, rights: &[u64]) -> Result<(), String> {
        let (format, k, n, lent) = (self.format, self.k, self.n, self.buffer.lent());
        let alone = library::reciprocal(format, lent, kept(format), t);
        for bits in rights {
            let x = t * (1 << self.right) + bits;
            let expected = served(interpolated(format, n, x));
            let found = answered(format, lent, n, x);
            if found != [expected; 2] {
                return Err(differs(format, n, x, found, expected));
            }
            if found[0] != alone {
                return Err(format!(
                    "reciprocal, {format}, its image: n {n}, x {x} gives {:?}, without the bits to the right of {t} it is {alone:?}",
                    found[0]
                ));
            }
            if !within_an_ulp(k, n, x, found[0].value) {
                return Err(an_ulp_off(format, n, x, found[0].value));
            }
        }
        self.cases += rights.len() as u64;
        Ok(())
    }

    fn every_one(&mut self) -> Result<(), String> {
        let rights: Vec<u64> = (0..1 << self.right).collect();
        (self.cut(0, 0)..2 * self.cut(0, 0)).try_for_each(|t| self.compare(t, &rights))
    }

    /// The distinct numbers of a list that are below a limit.
    fn distinct(mut numbers: Vec<u64>, below: u64) -> Vec<u64> {
        numbers.retain(|number| *number < below);
        numbers.sort_unstable();
        numbers.dedup();
        numbers
    }

    /// Both sides of each node and the middle of each piece, at both ends of the cut operand's interval and within it. The first has
    /// 2^n, the last has 2^(n+1) - 1. In the full form, where a precision has many pieces, some of them and the last one.
    fn edges(&mut self) -> Result<(), String> {
        let (steps, rights) = (self.steps(), 1u64 << self.right);
        let last = (1u64 << self.k) - 1;
        for j in (0..last).step_by(self.sample.apart).chain([last]) {
            let within = self.random.below(steps);
            let places = vec![0, 1, 2, steps / 2 - 1, steps / 2, steps - 2, steps - 1, within];
            for f in Longer::distinct(places, steps) {
                let (one, other) = (self.random.below(rights), self.random.below(rights));
                let bits = Longer::distinct(vec![0, 1, rights / 2, rights.wrapping_sub(2), rights - 1, one, other], rights);
                self.compare(self.cut(j, f), &bits)?;
            }
        }
        Ok(())
    }

    /// Operands in random pieces, half of them beside a node, with random bits to the right, until there are many.
    fn more(&mut self) -> Result<(), String> {
        let (steps, rights) = (self.steps(), 1u64 << self.right);
        while self.cases < self.sample.many {
            let j = self.random.below(1 << self.k);
            let f = match self.random.below(4) {
                0 => 0,
                1 => steps - 1,
                _ => self.random.below(steps),
            };
            let bits = self.random.below(rights) >> self.random.below(u64::from(self.right) + 1);
            let t = self.cut(j, f);
            assert!(power(kept(self.format)) <= u128::from(t) && u128::from(t) < 2 * power(kept(self.format)));
            self.compare(t, &Longer::distinct(vec![bits, rights - 1 - bits], rights))?;
        }
        Ok(())
    }
}
