//! The words of the full image of precision K as a test bench reads them: a line `J C` for each node, C in table units.
//!
//!     bench_words [--full] [-a A] [-b B] K
//!
//! The bench knows the number of words and their width, and nothing of a leading one to put back or of a last node
//! without a word. So the words are full ones, with `--full` or without: one row of options serves all examples. The
//! table has A table guard bits and B input guard bits, 2 and 3 where they are not given. The exit status is 1 where
//! the library turns the call back, and 2 where the arguments or the output do not allow it.
#![forbid(unsafe_code)]

use std::error::Error;
use std::io::{self, BufWriter, Write};
use std::process::ExitCode;

use yildegga::Format;

mod caller;

use caller::{Call, Program};

const PROGRAM: Program = Program { name: "bench_words", usage: "[--full] [-a A] [-b B] K", sizes: false, words: 1..=1 };

/// Word j of an image of words that are `width` bits wide: the bits from bit j * width on, counted from the most
/// significant of byte 0.
fn word(image: &[u8], width: usize, j: usize) -> u32 {
    (j * width..(j + 1) * width).fold(0, |value, bit| 2 * value + u32::from(image[bit / 8] >> (7 - bit % 8) & 1))
}

fn bench_words(call: Call) -> Result<u8, Box<dyn Error>> {
    let asked = call.format(PROGRAM.number("K", &call.words[0])?);
    let format = Format::full(asked.precision()).with_guard_bits(asked.table_guard_bits(), asked.input_guard_bits());
    let mut image = [0; Format::LONGEST];
    yildegga::build(format, &mut image)?;

    let width = format.word_bits().unwrap_or(0) as usize;
    let mut output = BufWriter::new(io::stdout().lock());
    for j in 0..format.word_count().unwrap_or(0) {
        writeln!(output, "{j} {}", word(&image, width, j as usize))?;
    }
    output.flush()?;
    Ok(0)
}

fn main() -> ExitCode {
    PROGRAM.run(bench_words)
}
