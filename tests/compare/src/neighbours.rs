//! Steps of neighbours: how far the reciprocals of two operands lie apart. Where their cut operands are t and t + d, R of t + d is at most R of t,
//! and less by at most d / 2^(b-1), rounded up.
//!
//! R is what the library gives; what is computed here are cut operands and the limit. Each operand is asked for by a plain and by a full image, by the
//! call itself and through a bound table. A case is an operand in one form, as in the other parts, however many it is compared with.
use crate::independent::{both_forms, cut, is_usual, kept, power, table, LEAST_FRACTION_BITS, MOST_FRACTION_BITS};
use crate::lent::{Buffer, Guards};
use crate::library::{Format, Lent};
use crate::operands::{answered, served};
use crate::random::Random;
use crate::work::{share, Counted};
use std::ops::RangeInclusive;

/// The greatest step from a cut operand to the d-th after it.
fn limit(format: Format, d: u64) -> u32 {
    d.div_ceil(1 << (format.input_guard_bits - 1)) as u32
}

/// A step: what R falls by. Where it rises, this is a number above any limit, as no R has more than 31 bits.
fn step(r: u32, after: u32) -> u32 {
    r.wrapping_sub(after)
}

/// An operand: its fraction bits, and itself.
type Operand = (u32, u64);

/// A precision and its guard bits, with the images of both forms.
struct Images {
    formats: [Format; 2],
    buffers: [Buffer; 2],
    lent: [Lent; 2],
}

impl Images {
    fn new(guards: Guards, shift: usize, plain: Format) -> Images {
        let formats = both_forms(plain);
        let mut buffers = formats.map(|format| Buffer::new(guards, shift % 16, &table(format).image));
        let lent = buffers.each_mut().map(Buffer::lent);
        Images { formats, buffers, lent }
    }

    /// R of an operand by the image of a form, 0 or 1.
    #[inline(always)]
    fn by(&self, form: usize, (n, x): Operand) -> Result<u32, String> {
        let format = self.formats[form];
        let found = answered(format, self.lent[form], n, x);
        let r = found[0].value;
        if found == [served(r); 2] && r < 1 << 31 {
            return Ok(r as u32);
        }
        Err(format!(
            "reciprocal, {format}, its image, n {n}, x {x}: the library gives {found:?}, the second bound, \
             expected is number 0 and twice the same value, below 2^31"
        ))
    }

    /// R of an operand, which both images have to give.
    #[inline(always)]
    fn by_both(&self, operand: Operand) -> Result<u32, String> {
        let (plain, full) = (self.by(0, operand)?, self.by(1, operand)?);
        if plain == full {
            return Ok(plain);
        }
        Err(self.differs((0, operand, plain), (1, operand, full), 0..=0))
    }

    /// Two operands, each with its form and R, between which the step is another than one of these.
    #[cold]
    fn differs(&self, one: (usize, Operand, u32), other: (usize, Operand, u32), steps: RangeInclusive<u32>) -> String {
        let [one, other] = [one, other].map(|(form, (n, x), r)| {
            let format = self.formats[form];
            format!("{r} at {format}, n {n}, x {x}, cut operand {}", cut(format, n, x))
        });
        format!(
            "reciprocals, their images: the library gives {one}, and {other}; expected is a step from {} to {}",
            steps.start(),
            steps.end()
        )
    }

    fn as_kept(&self) -> Result<(), String> {
        let mut both = self.formats.iter().zip(&self.buffers);
        both.try_for_each(|(format, buffer)| buffer.as_kept(|| format!("reciprocals of neighbours at {format}")))
    }
}

/// Cut operands side by side, from one up to another, a few hundred thousand, or all where there are fewer.
struct Block {
    plain: Format,
    from: u64,
    to: u64,
}

const BLOCK: u64 = 1 << 19;

impl Block {
    fn all(plain: Format) -> impl Iterator<Item = Block> {
        let (least, end) = (1 << kept(plain), 2 << kept(plain));
        (least..end).step_by(BLOCK as usize).map(move |from| Block { plain, from, to: end.min(from + BLOCK) })
    }

    /// The distances at which cut operands are compared. The last is that of two nodes.
    fn distances(&self) -> [u64; 12] {
        [1, 2, 3, 4, 5, 6, 7, 8, 9, 16, 100, 1 << (self.plain.precision + self.plain.input_guard_bits)]
    }

    /// R of each operand of the block is compared with those at these distances after it, of which some may be of the next block.
    fn compare(&self, guards: Guards) -> Counted {
        let n = kept(self.plain);
        let images = Images::new(guards, (self.from / BLOCK) as usize, self.plain);
        let farthest = self.to + self.distances().into_iter().fold(0, u64::max);
        let rs = (self.from..farthest.min(2 << n)).map(|t| images.by_both((n, t))).collect::<Result<Vec<u32>, String>>()?;
        images.as_kept()?;
        let own = &rs[..(self.to - self.from) as usize];
        for d in self.distances() {
            let limit = limit(self.plain, d);
            let steps = own.iter().zip(rs.iter().skip(d as usize)).map(|(r, after)| step(*r, *after));
            if steps.clone().fold(0, u32::max) > limit {
                let at = steps.take_while(|step| *step <= limit).count();
                let (t, r, after) = (self.from + at as u64, rs[at], rs[at + d as usize]);
                return Err(images.differs((0, (n, t), r), (0, (n, t + d), after), 0..=limit));
            }
        }
        Ok(2 * own.len() as u64)
    }
}

/// Every cut operand, and those after it at some distances.
pub fn cut_operands(guards: Guards, plain: &[Format]) -> Counted {
    let works: Vec<Block> = plain.iter().copied().flat_map(Block::all).collect();
    share(&works, |block| block.compare(guards))
}

/// From the least operand on, each step below 2^k is the greatest that there may be.
pub fn from_the_least(guards: Guards, plain: &[Format]) -> Counted {
    share(plain, |&plain| {
        let (n, least) = (kept(plain), 1 << kept(plain));
        let images = Images::new(guards, plain.precision as usize, plain);
        let highest = images.by_both((n, least))?;
        for d in 1..1 << plain.precision {
            let (r, limit) = (images.by_both((n, least + d))?, limit(plain, d));
            if step(highest, r) != limit {
                return Err(images.differs((0, (n, least), highest), (0, (n, least + d), r), limit..=limit));
            }
        }
        images.as_kept()?;
        Ok(2 << plain.precision)
    })
}

/// Operands of every length: of each number of fraction bits every pair, where they are few, and of longer ones groups at nodes and elsewhere, of one
/// length and of several. So many groups are taken of a kind, and with other guard bits than two and three an eighth of them.
pub fn of_any_length(guards: Guards, plain: &[Format], many: u64) -> Counted {
    let lengths = LEAST_FRACTION_BITS..=MOST_FRACTION_BITS;
    let works: Vec<(Format, u32)> = plain.iter().flat_map(|plain| lengths.clone().map(move |n| (*plain, n))).collect();
    share(&works, |&(plain, n)| {
        let images = Images::new(guards, n as usize, plain);
        let random = Random::new(u64::from(64 * plain.precision + n));
        let mut groups = Groups { plain, n, images, random, cases: 0 };
        let many = if is_usual(plain) { many } else { many.div_ceil(8) };
        if n < 8 {
            groups.compare((1 << n..2 << n).map(|x| (n, x)).collect())?;
        } else {
            groups.of_one_length(many)?;
        }
        groups.of_several_lengths(many)?;
        groups.images.as_kept()?;
        Ok(groups.cases)
    })
}

/// Groups of operands in one format, with n fraction bits or begun by an operand that has them.
struct Groups {
    plain: Format,
    n: u32,
    images: Images,
    random: Random,
    cases: u64,
}

impl Groups {
    /// Each operand is compared with each, itself too: R by the image of the one form with R by that of the other.
    fn compare(&mut self, mut operands: Vec<Operand>) -> Result<(), String> {
        operands.sort_unstable();
        operands.dedup();
        self.cases += 2 * operands.len() as u64;
        let mut given = Vec::with_capacity(operands.len());
        for (n, x) in operands {
            let rs = [self.images.by(0, (n, x))?, self.images.by(1, (n, x))?];
            given.push((cut(self.plain, n, x) as u64, (n, x), rs));
        }
        given.sort_unstable();
        for (at, &(t, one, rs)) in given.iter().enumerate() {
            for &(after, other, other_rs) in &given[at..] {
                let limit = limit(self.plain, after - t);
                for (form, other_form) in [(0, 1), (1, 0)] {
                    let (r, other_r) = (rs[form], other_rs[other_form]);
                    if step(r, other_r) > limit {
                        return Err(self.images.differs((form, one, r), (other_form, other, other_r), 0..=limit));
                    }
                }
            }
        }
        Ok(())
    }

    /// A number from 0 on, with any number of bits up to so many.
    fn drawn(&mut self, bits: u32) -> u64 {
        let bits = self.random.below(u64::from(bits) + 1);
        self.random.below(1 << bits)
    }

    /// How far apart the operands are that stand at nodes.
    fn piece(&self) -> u64 {
        1 << self.n.saturating_sub(self.plain.precision)
    }

    /// Operands about a place, which may be where they end: right before it and right at it, at the edges of cut operands, and some farther off.
    fn about(&mut self, place: u128) -> Vec<Operand> {
        let n = self.n;
        let right = power(n.saturating_sub(kept(self.plain)));
        let [back, ahead, farther] = [(); 3].map(|()| 1 + u128::from(self.drawn(n)));
        let before = [back, 2 * right, right + 1, right, 1].map(|far| place - far);
        let after = [0, 1, right - 1, right, 2 * right, ahead, farther].map(|far| place + far);
        let all = before.into_iter().chain(after).filter(|x| (power(n)..2 * power(n)).contains(x));
        all.map(|x| (n, x as u64)).collect()
    }

    /// Groups of operands with n fraction bits: about the nodes, or some of them and the last one, and about drawn places.
    fn of_one_length(&mut self, many: u64) -> Result<(), String> {
        let least = power(self.n);
        let nodes = (least / u128::from(self.piece())) as u64;
        for j in (0..nodes).step_by(nodes.div_ceil(many) as usize).chain([nodes]) {
            let operands = self.about(least + u128::from(j) * u128::from(self.piece()));
            self.compare(operands)?;
        }
        for _ in 0..many {
            let place = least + u128::from(self.random.below(1 << self.n));
            let operands = self.about(place);
            self.compare(operands)?;
        }
        Ok(())
    }

    /// Groups that begin with an operand with n fraction bits, at a node, right before one, or elsewhere. The others have cut operands up to a piece
    /// away, and any length, or one about that of a cut operand.
    fn of_several_lengths(&mut self, many: u64) -> Result<(), String> {
        let (plain, kept) = (self.plain, kept(self.plain));
        for at in 0..many {
            let drawn = (1 << self.n) + self.random.below(1 << self.n);
            let x = match at % 4 {
                0 => drawn - drawn % self.piece(),
                1 => drawn | (self.piece() - 1),
                _ => drawn,
            };
            let t = cut(plain, self.n, x) as u64;
            let mut operands = vec![(self.n, x)];
            for other in 0..6 {
                let far = self.drawn(plain.precision + plain.input_guard_bits);
                let t = if other % 2 == 0 { (t + far).min((2 << kept) - 1) } else { (t - far).max(1 << kept) };
                let (least, lengths) = if other < 3 { (LEAST_FRACTION_BITS, MOST_FRACTION_BITS) } else { (kept - 2, 5) };
                let n = least + self.random.below(u64::from(lengths)) as u32;
                operands.push(self.with_bits(n, t));
            }
            self.compare(operands)?;
        }
        Ok(())
    }

    /// An operand with so many fraction bits, with drawn ones behind a cut operand, or those with which one begins.
    fn with_bits(&mut self, n: u32, t: u64) -> Operand {
        match n.checked_sub(kept(self.plain)) {
            Some(right) => (n, t * (1 << right) + self.random.below(1 << right)),
            None => (n, t >> (kept(self.plain) - n)),
        }
    }
}
