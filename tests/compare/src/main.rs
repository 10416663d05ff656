//! Compares the library, called as C calls it, with an independent implementation.
//!
//! usage: compare [memory] [WORD]     `memory`: fewer cases, for a run under a memory checker such as valgrind; WORD: only the parts
//!                                    whose names hold it
//!
//! Prints `ok PART: COUNT cases` for each part. At the first difference it says which it is and ends with status 1. A case is one
//! call with one set of inputs; the call itself and the one through a bound table are made of each and count once. Every part has both forms.
//! Parts have two table guard bits and three input guard bits, and those with other guard bits the eight other pairs.
mod both;
mod damage;
mod fences;
mod images;
mod independent;
mod lent;
mod library;
mod neighbours;
mod operands;
mod random;
mod refusals;
mod short;
mod tails;
mod unwritten;
mod work;

use independent::{formats, is_usual, other_formats, precisions, with_others, GREATEST};
use lent::Guards::{Bytes, Watched};
use library::Format;
use std::cell::Cell;
use std::process::exit;
use work::Counted;

/// How many bits of an image lie from one that is changed to the next: each is, but of the long full images some, and with other guard bits some
/// from precision 6 on.
fn one_bit_step(format: Format) -> usize {
    match (is_usual(format), format.form) {
        (true, 0) => 1,
        (true, _) => [1, 3, 7, 13, 29][format.precision.saturating_sub(8) as usize],
        (false, _) => [1, 3, 5, 11, 23, 41, 83, 167][format.precision.saturating_sub(5) as usize],
    }
}

/// How many times fewer drawn damages the full form has, which is read and judged as the plain one is.
fn rarer(format: Format) -> usize {
    match format.form {
        0 => 1,
        _ => 5,
    }
}

/// Those of some formats whose precision is not above this one.
fn up_to(greatest: u32, mut formats: Vec<Format>) -> Vec<Format> {
    formats.retain(|format| format.precision <= greatest);
    formats
}

/// Guard bits that stand in the two halves of a register, served ones and others, some of which are served in fewer bits.
const REGISTERS: [(u32, u32); 10] =
    [(3, 4), (4, 5), (2, 5), (1, 3), (2, 6), (5, 2), (1 << 16 | 2, 3), (2, 1 << 16 | 3), (1 << 31 | 4, 5), (u32::MAX, u32::MAX)];

/// Some formats with other guard bits for a run under a memory checker: the plain ones that have filling bits, some full ones, and those with the
/// longest images.
const A_FEW: [Format; 8] = [
    Format::plain(1).with_guard_bits(3, 3),
    Format::plain(1).with_guard_bits(4, 5),
    Format::plain(2).with_guard_bits(3, 4),
    Format::full(2).with_guard_bits(3, 5),
    Format::full(4).with_guard_bits(2, 4),
    Format::full(6).with_guard_bits(3, 4),
    Format::plain(12).with_guard_bits(4, 4),
    Format::full(12).with_guard_bits(4, 5),
];

/// The parts of a run: those whose names hold a word.
struct Parts<'a> {
    word: &'a str,
    /// Whether any part was run.
    any: Cell<bool>,
}

impl Parts<'_> {
    fn part(&self, name: &str, counted: impl FnOnce() -> Counted) {
        if !name.contains(self.word) {
            return;
        }
        self.any.set(true);
        match counted() {
            Ok(cases) => println!("ok {name}: {cases} cases"),
            Err(difference) => {
                println!("difference in {name}: {difference}");
                exit(1);
            }
        }
    }

    fn whole(&self) {
        let (formats, others) = (formats(), other_formats());
        let plain: Vec<Format> = precisions().map(Format::plain).collect();
        let other_plain = || plain.iter().copied().flat_map(with_others).collect();
        let shifts: Vec<usize> = (0..16).collect();
        self.part("every cut operand", operands::every_cut_operand);
        self.part("longer operands", || operands::long_operands(&formats));
        self.part("every short operand", || short::every_one(Bytes, GREATEST));
        self.part("bits to the right of short operands", || short::to_the_right(Bytes, GREATEST));
        self.part("limits of operands", || short::limits(Bytes, plain.clone()));
        self.part("steps of cut operands", || neighbours::cut_operands(Bytes, &plain));
        self.part("steps from the least operand", || neighbours::from_the_least(Bytes, &plain));
        self.part("steps of operands of any length", || neighbours::of_any_length(Bytes, &plain, 256));
        self.part("image lengths", images::lengths);
        self.part("constant nodes", images::constant_nodes);
        self.part("images built", || images::built(Bytes, &formats, &shifts));
        self.part("images read", || images::read(Bytes, &formats, &shifts));
        self.part("one bit changed", || damage::one_bit(Bytes, &formats, one_bit_step));
        self.part("two bits changed", || damage::two_bits(Bytes, &formats, 4, |format| 50_000 / rarer(format)));
        self.part("any content", || damage::any_content(Bytes, &formats, |format| 1000 / rarer(format)));
        self.part("every content of the shortest images", || damage::every_content(Bytes, 1));
        self.part("tails built", || tails::built(Bytes, &formats, 1));
        self.part("tails with one bit changed", || tails::one_bit(Bytes, &formats, 1));
        self.part("tails with more than one byte changed", || tails::several(Bytes, &formats, 1));
        self.part("filling bits", || tails::filling(Bytes, &formats, 16, true));
        self.part("tails of some MiB", || tails::long(Bytes, &[1 << 20, (5 << 20) + 3]));
        self.part("a tail beyond 4 GiB", fences::beyond_32_bits);
        self.part("refusals", || refusals::combinations(Bytes, true));
        self.part("upper halves of registers", || refusals::upper_halves(Bytes, &[(2, 3)]));
        self.part("no bytes", refusals::no_bytes);
        self.part("fences", || fences::fenced(&formats, |_| 1));
        self.part("cut operands with other guard bits", operands::other_cut_operands);
        self.part("longer operands with other guard bits", || operands::long_operands(&others));
        self.part("short operands with other guard bits", short::other_ones);
        self.part("bits to the right of short operands with other guard bits", short::others_to_the_right);
        self.part("limits of operands with other guard bits", || short::limits(Bytes, other_plain()));
        self.part("steps of cut operands with other guard bits", || neighbours::cut_operands(Bytes, &up_to(8, other_plain())));
        self.part("steps from the least operand with other guard bits", || neighbours::from_the_least(Bytes, &other_plain()));
        self.part("steps of operands of any length with other guard bits", || neighbours::of_any_length(Bytes, &other_plain(), 256));
        self.part("image lengths with other guard bits", images::other_lengths);
        self.part("images built with other guard bits", || images::built(Bytes, &others, &[0, 1, 7, 12]));
        self.part("images read with other guard bits", || images::read(Bytes, &others, &[0, 3, 13]));
        self.part("one bit changed with other guard bits", || damage::one_bit(Bytes, &others, one_bit_step));
        self.part("two bits changed with other guard bits", || damage::two_bits(Bytes, &others, 2, |_| 500));
        self.part("any content with other guard bits", || damage::any_content(Bytes, &others, |_| 50));
        self.part("contents of short images with other guard bits", || damage::other_contents(Bytes, 1, 2000));
        self.part("tails built with other guard bits", || tails::built(Bytes, &others, 1));
        self.part("tails with one bit changed with other guard bits", || tails::one_bit(Bytes, &others, 1));
        self.part("tails with more than one byte changed with other guard bits", || tails::several(Bytes, &others, 1));
        self.part("filling bits with other guard bits", || tails::filling(Bytes, &others, 2, true));
        self.part("guard bits out of range", || refusals::guard_bits(Bytes, true));
        self.part("upper halves of registers with other guard bits", || refusals::upper_halves(Bytes, &REGISTERS));
        self.part("fences with other guard bits", || fences::fenced(&others, |k| 1 << (k / 2)));
    }

    fn memory(&self) {
        let formats: Vec<Format> = formats().into_iter().chain(A_FEW).collect();
        let plain: Vec<Format> = precisions().map(Format::plain).chain(A_FEW.into_iter().filter(|format| format.form == 0)).collect();
        self.part("blocks not written to", || unwritten::built(&formats));
        self.part("images built", || images::built(Watched, &formats, &[0]));
        self.part("images read", || images::read(Watched, &formats, &[0]));
        self.part("every short operand", || short::every_one(Watched, 4));
        self.part("bits to the right of short operands", || short::to_the_right(Watched, 3));
        self.part("limits of operands", || short::limits(Watched, plain.clone()));
        self.part("steps of cut operands", || neighbours::cut_operands(Watched, &up_to(3, plain.clone())));
        self.part("steps from the least operand", || neighbours::from_the_least(Watched, &up_to(8, plain.clone())));
        self.part("steps of operands of any length", || neighbours::of_any_length(Watched, &plain, 1));
        self.part("one bit changed", || damage::one_bit(Watched, &formats, |format| 1 << format.precision));
        self.part("two bits changed", || damage::two_bits(Watched, &formats, 1, |_| 10));
        self.part("any content", || damage::any_content(Watched, &formats, |_| 1));
        self.part("every content of the shortest images", || damage::every_content(Watched, 9973));
        self.part("contents of short images with other guard bits", || damage::other_contents(Watched, 149, 10));
        self.part("tails built", || tails::built(Watched, &formats, 7));
        self.part("tails with one bit changed", || tails::one_bit(Watched, &formats, 7));
        self.part("tails with more than one byte changed", || tails::several(Watched, &formats, 7));
        self.part("filling bits", || tails::filling(Watched, &formats, 1, false));
        self.part("refusals", || refusals::combinations(Watched, false));
        self.part("guard bits out of range", || refusals::guard_bits(Watched, false));
        self.part("upper halves of registers", || refusals::upper_halves(Watched, &[(2, 3)]));
        self.part("fences", || fences::fenced(&formats, |k| 1 << (k / 2)));
    }
}

fn main() {
    fences::watch();
    let words: Vec<String> = std::env::args().skip(1).collect();
    let (memory, word) = match words.iter().map(String::as_str).collect::<Vec<_>>()[..] {
        [] => (false, ""),
        ["memory"] => (true, ""),
        ["memory", word] => (true, word),
        [word] => (false, word),
        _ => {
            eprintln!("usage: compare [memory] [WORD]");
            exit(2);
        }
    };
    let parts = Parts { word, any: Cell::new(false) };
    if memory {
        parts.memory();
    } else {
        parts.whole();
    }
    if !parts.any.get() {
        eprintln!("compare: no part has {word} in its name");
        exit(2);
    }
}
