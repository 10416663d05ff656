//! Reads a mask file back as a full ROM of precision K, an image with zeros behind it to the file's end, and prints
//! `right` or what is wrong.
//!
//!     proofread [--full] [-a A] [-b B] K FILE
//!
//! The words are plain, or full with `--full`. The table has A table guard bits and B input guard bits, 2 and 3 where
//! they are not given. Where words are wrong, the first one is shown, with the bytes that hold it and what they should
//! be, and the wrong words are counted. Where every word is right, the first byte is shown that has a set bit behind
//! them, a filling bit or a bit past the image. The file is read whole, whatever its size. The exit status is 1 where
//! something is wrong or the library turns the call back, and 2 where the arguments, the memory, the file or the output
//! do not allow it.
#![forbid(unsafe_code)]

use std::error::Error;
use std::fs;
use std::io::{self, Write};
use std::path::Path;
use std::process::ExitCode;

use yildegga::{Format, Refusal, Refused};

mod caller;

use caller::{Call, Program};

const PROGRAM: Program = Program { name: "proofread", usage: "[--full] [-a A] [-b B] K FILE", sizes: false, words: 2..=2 };

/// Bytes in hex, with a space between.
fn hex(bytes: &[u8]) -> String {
    bytes.iter().map(|byte| format!("{byte:02X}")).collect::<Vec<_>>().join(" ")
}

/// The lines on the wrong word of node j, the first one, beside the right image, and how many words are wrong.
fn wrong_word(format: Format, right: &[u8], rom: &[u8], j: u32) -> Result<String, Refused> {
    let at = yildegga::word_range(format, rom, j);
    let words = format.word_count().unwrap_or(0);
    let wrong = (j..words).filter(|&each| yildegga::node(format, rom, each).is_err()).count();
    Ok(format!(
        "wrong word at node {j}, bytes {} to {}: {}\nshould be {}: node {j} is {} table units\nwrong words: {wrong} of {words}",
        at.start,
        at.end - 1,
        hex(yildegga::word_bytes(format, rom, j)),
        hex(yildegga::word_bytes(format, right, j)),
        yildegga::node(format, right, j)?.0
    ))
}

/// The lines on the first byte with a set bit behind the words, beside the right image.
fn wrong_tail(right: &[u8], rom: &[u8], at: usize) -> String {
    let (what, byte) = right.get(at).map_or(("tail", 0), |&byte| ("filling bits", byte));
    let last = right.len() - 1;
    format!("wrong {what} at byte {at}: {}\nshould be {byte:02X}: the image is bytes 0 to {last}", hex(&rom[at..=at]))
}

fn proofread(call: Call) -> Result<u8, Box<dyn Error>> {
    let format = call.format(PROGRAM.number("K", &call.words[0])?);
    let file = Path::new(&call.words[1]);
    let rom = fs::read(file).map_err(|error| format!("{}: {error}", file.display()))?;

    let Err(refused) = yildegga::check(format, &rom) else {
        writeln!(io::stdout(), "right")?;
        return Ok(0);
    };
    let mut right = vec![0; format.image_length().unwrap_or(0)];
    yildegga::build(format, &mut right).or(Err(refused))?; // there is no image where there is no table
    let lines = match refused.refusal() {
        Refusal::WrongWord => wrong_word(format, &right, &rom, u32::try_from(refused.place())?)?,
        Refusal::TailNotZero => wrong_tail(&right, &rom, usize::try_from(refused.place())?),
        Refusal::ShortBuffer => {
            let (found, wanted) = (rom.len(), right.len());
            let _ = writeln!(io::stderr(), "proofread: {refused}: the file has {found} bytes, and the image {wanted}");
            return Ok(caller::TURNED_BACK);
        }
        _ => return Err(refused.into()),
    };
    writeln!(io::stdout(), "{lines}")?;
    Ok(caller::TURNED_BACK)
}

fn main() -> ExitCode {
    PROGRAM.run(proofread)
}
