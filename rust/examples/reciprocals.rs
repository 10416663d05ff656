//! The reciprocals of a list of operands at precision K, each operand X with N fraction bits: a line `X R` for each, or
//! `X refused NUMBER PLACE`.
//!
//!     reciprocals [--full] [-a A] [-b B] K N [X...]
//!
//! Where no X is given, each line of standard input is one. A line has at most 1000 bytes. The image has plain words,
//! or full ones with `--full`. The table has A table guard bits and B input guard bits, 2 and 3 where they are not
//! given. The exit status is 1 where the library turned a call back, and 2 where the arguments, the input or the output
//! do not allow it: the first operand that is no number, or a line that is too long, ends the list.
#![forbid(unsafe_code)]

use std::error::Error;
use std::io::{self, BufRead, Read, Write};
use std::process::ExitCode;
use std::str;

use yildegga::BoundTable;

mod caller;

use caller::{Call, Program};

const PROGRAM: Program = Program { name: "reciprocals", usage: "[--full] [-a A] [-b B] K N [X...]", sizes: false, words: 2..=usize::MAX };

/// The most bytes of a line, the line feed not among them.
const LONGEST_LINE: usize = 1000;

/// Answers operands one after the other.
struct Answers<'a> {
    table: BoundTable<'a>,
    n: u32,
    /// The operand, from 1.
    which: u64,
    status: u8,
}

impl Answers<'_> {
    /// Prints the line of the next operand, which has to be a number.
    fn answer(&mut self, operand: Option<&str>) -> Result<(), Box<dyn Error>> {
        self.which += 1;
        let number = operand.and_then(caller::number);
        let x: u64 = number.ok_or_else(|| format!("operand {} is not a number below 2^64", self.which))?;
        match self.table.reciprocal(self.n, x) {
            Ok(r) => writeln!(io::stdout(), "{x} {}", r.0)?,
            Err(refused) => {
                writeln!(io::stdout(), "{x} refused {} {}", refused.number(), refused.place())?;
                self.status = caller::TURNED_BACK;
            }
        }
        Ok(())
    }

    /// Answers each line. One that cannot be read to its end is not answered.
    fn answer_lines(&mut self, mut input: impl BufRead) -> Result<(), Box<dyn Error>> {
        let mut line = Vec::with_capacity(LONGEST_LINE + 1);
        while input.by_ref().take(LONGEST_LINE as u64 + 1).read_until(b'\n', &mut line)? > 0 {
            if line.len() > LONGEST_LINE && !line.ends_with(b"\n") {
                return Err(format!("operand {} is a line of more than {LONGEST_LINE} bytes", self.which + 1).into());
            }
            self.answer(str::from_utf8(line.strip_suffix(b"\n").unwrap_or(&line)).ok())?;
            line.clear();
        }
        Ok(())
    }
}

fn reciprocals(call: Call) -> Result<u8, Box<dyn Error>> {
    let format = call.format(PROGRAM.number("K", &call.words[0])?);
    let n = PROGRAM.number("N", &call.words[1])?;
    let operands = &call.words[2..];

    let mut image = vec![0; format.image_length().unwrap_or(0)];
    yildegga::build(format, &mut image)?;
    let mut answers = Answers { table: BoundTable::new(format, &image), n, which: 0, status: 0 };
    for operand in operands {
        answers.answer(operand.to_str())?;
    }
    if operands.is_empty() {
        answers.answer_lines(io::stdin().lock())?;
    }
    Ok(answers.status)
}

fn main() -> ExitCode {
    PROGRAM.run(reciprocals)
}
