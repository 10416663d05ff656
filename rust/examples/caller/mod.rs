//! What the examples share: how a program is called, a number from text, the end of a program, and the exit statuses
//! besides 0.
#![allow(dead_code)] // each example takes what it needs

use std::env;
use std::error::Error;
use std::ffi::{OsStr, OsString};
use std::io::{self, Write};
use std::ops::RangeInclusive;
use std::process::ExitCode;
use std::str::FromStr;

use yildegga::{Format, Refused};

/// The library turned a call back, or found a wrong word or tail.
pub const TURNED_BACK: u8 = 1;
/// The arguments, the memory, the input, a file or the output did not allow it.
pub const NOT_CALLED: u8 = 2;

/// A number that is written in decimal digits alone, no sign and no space.
pub fn number<T: FromStr>(text: &str) -> Option<T> {
    text.parse().ok().filter(|_| !text.starts_with('+'))
}

/// A program: its name, what follows it in a call, whether it has the option `--size`, and how many words it takes
/// besides the options.
pub struct Program {
    pub name: &'static str,
    pub usage: &'static str,
    pub sizes: bool,
    pub words: RangeInclusive<usize>,
}

/// A call: whether `--full` is given, the numbers of the other options, and the other words in their order.
#[derive(Default)]
pub struct Call {
    full: bool,
    a: Option<u32>,
    b: Option<u32>,
    pub size: Option<u32>,
    pub words: Vec<OsString>,
}

impl Program {
    /// What is wrong with a word of a call, and how the program is called.
    fn misused(&self, word: &str, why: &str) -> String {
        format!("{word} {why}; usage: {} {}", self.name, self.usage)
    }

    /// The number that stands for `name` in a call.
    pub fn number(&self, name: &str, text: &OsStr) -> Result<u32, String> {
        text.to_str().and_then(number).ok_or_else(|| self.misused(name, "is not a number below 2^32"))
    }

    /// Takes the program's call apart. A word that begins with `-` is an option, wherever it stands. An error is a word
    /// that is none of the program's options, stands twice or lacks its number, and too few or too many words.
    fn call(&self) -> Result<Call, String> {
        let mut call = Call::default();
        let mut words = env::args_os().skip(1);
        while let Some(word) = words.next() {
            if !word.as_encoded_bytes().starts_with(b"-") {
                call.words.push(word);
                continue;
            }
            let name = word.to_string_lossy();
            let given = match name.as_ref() {
                "--full" => {
                    if call.full {
                        return Err(self.misused(&name, "stands twice"));
                    }
                    call.full = true;
                    continue;
                }
                "-a" => &mut call.a,
                "-b" => &mut call.b,
                "--size" if self.sizes => &mut call.size,
                _ => return Err(self.misused(&name, "is no option")),
            };
            if given.is_some() {
                return Err(self.misused(&name, "stands twice"));
            }
            let text = words.next().ok_or_else(|| self.misused(&name, "has no number behind it"))?;
            *given = Some(self.number(&name, &text)?);
        }
        if self.words.contains(&call.words.len()) {
            Ok(call)
        } else {
            Err(format!("usage: {} {}", self.name, self.usage))
        }
    }

    /// Runs the program: what it does with its call gives the exit status, and what stops it is said on standard error.
    pub fn run(&self, job: impl FnOnce(Call) -> Result<u8, Box<dyn Error>>) -> ExitCode {
        let status = self.call().map_err(Into::into).and_then(job);
        ExitCode::from(status.unwrap_or_else(|error| {
            let _ = writeln!(io::stderr(), "{}: {error}", self.name);
            if error.is::<Refused>() {
                TURNED_BACK
            } else {
                NOT_CALLED
            }
        }))
    }
}

impl Call {
    /// The table of precision `k` that it asks for, with the usual guard bits where none are given.
    pub fn format(&self, k: u32) -> Format {
        let format = if self.full { Format::full(k) } else { Format::plain(k) };
        format.with_guard_bits(self.a.unwrap_or(format.table_guard_bits()), self.b.unwrap_or(format.input_guard_bits()))
    }
}
