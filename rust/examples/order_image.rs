//! Orders a ROM: builds the image of precision K, writes it to FILE, and prints K and the bytes written.
//!
//!     order_image [--full] [-a A] [-b B] [--size SIZE] K FILE
//!
//! The words are plain, or full with `--full`. The table has A table guard bits and B input guard bits, 2 and 3 where
//! they are not given. With `--size`, zeros follow the image to the last of SIZE bytes. The exit status is 1 where the
//! library turns the call back, and 2 where the arguments, the memory, the file or the output do not allow it.
#![forbid(unsafe_code)]

use std::error::Error;
use std::fs;
use std::io::{self, ErrorKind, Write};
use std::path::Path;
use std::process::ExitCode;

mod caller;

use caller::{Call, Program};

const PROGRAM: Program = Program { name: "order_image", usage: "[--full] [-a A] [-b B] [--size SIZE] K FILE", sizes: true, words: 2..=2 };

fn order(call: Call) -> Result<u8, Box<dyn Error>> {
    let k = PROGRAM.number("K", &call.words[0])?;
    let file = Path::new(&call.words[1]);
    let format = call.format(k);
    let size = match (format.image_length(), call.size) {
        (None, _) => 0, // there is no table, whatever the size asked for
        (Some(_), Some(size)) => size as usize,
        (Some(image), None) => image,
    };

    let mut rom = Vec::new();
    rom.try_reserve_exact(size).map_err(|_| io::Error::from(ErrorKind::OutOfMemory))?;
    rom.resize(size, 0);
    yildegga::build(format, &mut rom)?;
    fs::write(file, &rom).map_err(|error| format!("{}: {error}", file.display()))?;
    writeln!(io::stdout(), "{k} {size}")?;
    Ok(0)
}

fn main() -> ExitCode {
    PROGRAM.run(order)
}
