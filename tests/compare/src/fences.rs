//! Buffers between pages that cannot be touched: a call that reads or writes a byte outside of what it is lent does not come back. All
//! calls but the builder's are made where nothing can be written either. For the builder and the check the pages stand behind the buffer,
//! for the others also behind the image, where the buffer is said to be longer.
use crate::both::{called, Both};
use crate::independent::{length, power, rom, table, Judged, GREATEST, MOST_FRACTION_BITS};
use crate::library::{Format, Lent};
use crate::work::{share, Counted};
use std::ffi::c_char;
use std::fmt::Write;
use std::{ptr, slice};

const PAGE: usize = 4096;
/// The bytes between the fences.
const ROOM: usize = 4 * PAGE;
/// What stands in the room where no buffer does.
const REST: u8 = 0xC3;

extern "C" {
    fn mmap(start: *mut u8, length: usize, protection: i32, flags: i32, file: i32, offset: i64) -> *mut u8;
    fn munmap(start: *mut u8, length: usize) -> i32;
    fn mprotect(start: *mut u8, length: usize, protection: i32) -> i32;
    fn memfd_create(name: *const c_char, flags: u32) -> i32;
    fn ftruncate(file: i32, length: i64) -> i32;
    fn close(file: i32) -> i32;
    fn signal(number: i32, handler: extern "C" fn(i32)) -> usize;
    fn write(file: i32, bytes: *const u8, count: usize) -> isize;
    fn _exit(status: i32) -> !;
}

const NOTHING: i32 = 0;
const READ: i32 = 1;
const READ_AND_WRITE: i32 = 3;
const PRIVATE_AND_ANONYMOUS: i32 = 0x22;
const NOT_RESERVED: i32 = 0x4000;
const SHARED_AND_FIXED: i32 = 0x11;
const BUS_ERROR: i32 = 7;
const SEGMENTATION_FAULT: i32 = 11;

/// Where in the room a buffer stands: its first byte after the one fence, or its last before the other.
#[derive(Clone, Copy, Debug)]
enum Side {
    First,
    Last,
}

struct Fenced {
    room: *mut u8,
}

impl Fenced {
    fn new() -> Fenced {
        unsafe {
            let start = mmap(ptr::null_mut(), ROOM + 2 * PAGE, NOTHING, PRIVATE_AND_ANONYMOUS, -1, 0);
            assert_ne!(start as isize, -1, "no pages to be had");
            Fenced { room: start.add(PAGE) }
        }
    }

    fn allow(&self, protection: i32) {
        assert_eq!(unsafe { mprotect(self.room, ROOM, protection) }, 0);
    }

    fn place(&self, side: Side, length: usize) -> usize {
        match side {
            Side::First => 0,
            Side::Last => ROOM - length,
        }
    }

    /// A buffer with this content, and nothing else in the room. It may be read.
    fn put(&self, side: Side, content: &[u8]) -> Lent {
        self.allow(READ_AND_WRITE);
        let at = self.place(side, content.len());
        unsafe {
            self.room.write_bytes(REST, ROOM);
            self.room.add(at).copy_from_nonoverlapping(content.as_ptr(), content.len());
        }
        self.allow(READ);
        Lent { start: unsafe { self.room.add(at) }, length: content.len() }
    }

    /// Whether the room holds this content where a buffer stands, and nothing else.
    fn holds(&self, side: Side, content: &[u8]) -> bool {
        let mut expected = [REST; ROOM];
        let at = self.place(side, content.len());
        expected[at..at + content.len()].copy_from_slice(content);
        unsafe { slice::from_raw_parts(self.room, ROOM) == expected }
    }
}

/// A line on standard output without the help of what may be broken.
struct Line {
    bytes: [u8; 256],
    length: usize,
}

impl Write for Line {
    fn write_str(&mut self, text: &str) -> std::fmt::Result {
        for byte in text.bytes().take(self.bytes.len() - self.length) {
            self.bytes[self.length] = byte;
            self.length += 1;
        }
        Ok(())
    }
}

/// The end of a call that touched what it was not lent.
extern "C" fn touched(_signal: i32) {
    let mut line = Line { bytes: [0; 256], length: 0 };
    let _ = writeln!(line, "difference: {} touched bytes that it may not, expected is an answer", called());
    unsafe {
        write(1, line.bytes.as_ptr(), line.length);
        _exit(1)
    }
}

/// Has a call that touches what it may not reported.
pub fn watch() {
    unsafe {
        signal(SEGMENTATION_FAULT, touched);
        signal(BUS_ERROR, touched);
    }
}

/// The calls that look at nothing behind the words: each `step`-th node and those about the last one, its word, and operands at both ends of
/// its piece, short ones too.
pub fn calls(both: &mut Both, step: usize) -> Result<(), String> {
    let Format { precision, input_guard_bits, .. } = both.judged.format;
    let k = precision.min(12);
    let kept = 2 * k + input_guard_bits;
    let last = power(k) as u32;
    for j in (0..last).step_by(step).chain(last - 1..last + 2).chain([u32::MAX]) {
        both.node(j)?;
        both.word_bytes(j)?;
        for n in [k + 1, kept - 1, kept, MOST_FRACTION_BITS] {
            let piece = 1u64 << (n - k);
            let node = u128::from(last + j.min(last)) * u128::from(piece);
            for x in [node, node + u128::from(piece) - 1] {
                both.reciprocal(n, x as u64)?;
            }
        }
    }
    Ok(())
}

/// Images in buffers of their own length, in longer and in shorter ones, and buffers that are said to be longer than they are.
pub fn fenced(formats: &[Format], step: impl Fn(u32) -> usize + Sync) -> Counted {
    let works: Vec<Format> = formats.iter().rev().copied().collect();
    share(&works, |&format| {
        let (fenced, step) = (Fenced::new(), step(format.precision));
        let mut cases = said_longer(&fenced, format, step)?;
        for side in [Side::First, Side::Last] {
            cases += images(&fenced, format, side, step)? + tails(&fenced, format, side, step)?;
            cases += turned_back(&fenced, format, side, step)?;
        }
        Ok(cases)
    })
}

fn images(fenced: &Fenced, format: Format, side: Side, step: usize) -> Counted {
    let image = &table(format).image;
    let mut cases = 0;
    for byte in [0x00, 0xFF] {
        let content = vec![byte; image.len()];
        let judged = Judged::new(format, &content, content.len());
        let lent = fenced.put(side, &content);
        let mut both = Both::new(lent, &judged, &content);
        both.check()?;
        calls(&mut both, 61 * step)?;
        cases += both.cases;
    }
    let judged = Judged::new(format, image, image.len());
    let mut both = Both::new(fenced.put(side, image), &judged, image);
    both.check()?;
    calls(&mut both, step)?;
    Ok(cases + both.cases)
}

/// Images built and checked in buffers with tails of many lengths, each `step`-th, in the full form each third of these, at the fence: over
/// zeros and ones; the full ROM; and with a filling bit set, or each byte of the tail, or some of them, not zero.
fn tails(fenced: &Fenced, format: Format, side: Side, step: usize) -> Counted {
    let image = &table(format).image;
    let most = ROOM - length(Format { precision: GREATEST, ..format });
    let step = step * if format.form == 0 { 1 } else { 3 };
    let mut cases = 0;
    for more in (0..=80).chain([127, 128, 129, 191, 192, 255, 256, 1000, most]).step_by(step) {
        let length = image.len() + more;
        let full = rom(format, length);
        for byte in [0x00, 0xFF] {
            let content = vec![byte; length];
            let judged = Judged::new(format, &content, length);
            let mut both = Both::new(fenced.put(side, &content), &judged, &content);
            both.check()?;
            fenced.allow(READ_AND_WRITE);
            both.build()?;
            if !fenced.holds(side, &full) {
                return Err(format!(
                    "build, {format}, {side:?} byte at a fence, length {length}, over bytes {byte:#x}: what is in the buffer is not its image and zeros, or more was written"
                ));
            }
            cases += both.cases;
        }
        let sound = Judged::new(format, &full, length);
        let mut both = Both::new(fenced.put(side, &full), &sound, &full);
        both.check()?;
        cases += both.cases;
        let filling = table(format).bits.len()..8 * image.len();
        let tail = (0..more).step_by(1 + more / 16).chain(more.checked_sub(1)).map(|at| 8 * (image.len() + at) + 7 - at % 8);
        for bit in filling.chain(tail) {
            let mut content = full.clone();
            content[bit / 8] |= 128 >> (bit % 8);
            let judged = Judged::new(format, &content, length);
            let mut both = Both::new(fenced.put(side, &content), &judged, &content);
            both.check()?;
            cases += both.cases;
        }
    }
    Ok(cases)
}

/// Buffers that are too short, and those of numbers that are no precision or no guard bits. Here the builder may not write.
fn turned_back(fenced: &Fenced, format: Format, side: Side, step: usize) -> Counted {
    let image = &table(format).image;
    let mut cases = 0;
    let asked = [0, 1, 2, 7, 8, image.len() / 2, image.len().saturating_sub(8), image.len().saturating_sub(2), image.len() - 1];
    for length in asked.into_iter().filter(|length| *length < image.len()) {
        let none = [format.with_guard_bits(5, format.input_guard_bits), format.with_guard_bits(format.table_guard_bits, 6)];
        let asked = [format.precision, 12, 0, 13, u32::MAX].map(|precision| Format { precision, ..format });
        for asked in asked.into_iter().chain(none) {
            let judged = Judged::new(asked, &image[..length], length);
            let mut both = Both::new(fenced.put(side, &image[..length]), &judged, &image[..length]);
            both.check()?;
            calls(&mut both, 509 * step)?;
            both.build()?;
            cases += both.cases;
        }
    }
    Ok(cases)
}

/// Buffers of an image's length that are said to be longer: what follows the image cannot be touched, and the calls that look at nothing
/// there serve them.
fn said_longer(fenced: &Fenced, format: Format, step: usize) -> Counted {
    let image = &table(format).image;
    let mut cases = 0;
    for length in [image.len() + 1, image.len() + 8, image.len() + PAGE, u32::MAX as usize, 1 << 32, 1 << 47, usize::MAX / 2, usize::MAX] {
        let judged = Judged::new(format, image, length);
        let lent = Lent { length, ..fenced.put(Side::Last, image) };
        let mut both = Both::new(lent, &judged, image);
        calls(&mut both, 7 * step)?;
        cases += both.cases;
    }
    Ok(cases)
}

/// A buffer whose last bytes have numbers of more than 32 bits.
const LENGTH: usize = (1 << 32) + ROOM;

/// Such buffers built and checked.
pub fn beyond_32_bits() -> Counted {
    let works = [
        (Format::plain(2), true),
        (Format::full(1), true),
        (Format::plain(2), false),
        (Format::plain(12), false),
        (Format::full(12), false),
    ];
    share(&works, |&(format, built)| if built { built_beyond(format) } else { checked_beyond(format) })
}

/// An image built in such a buffer. Its middle is one block of memory that stands there again and again, so that no 4 GiB are needed.
fn built_beyond(format: Format) -> Counted {
    const BLOCK: usize = 1 << 24;
    unsafe {
        let start = mmap(ptr::null_mut(), LENGTH + PAGE, NOTHING, PRIVATE_AND_ANONYMOUS | NOT_RESERVED, -1, 0);
        assert_ne!(start as isize, -1, "no pages to be had");
        let file = memfd_create(c"block".as_ptr(), 0);
        assert_eq!(ftruncate(file, BLOCK as i64), 0);
        for at in (BLOCK..1 << 32).step_by(BLOCK) {
            assert_eq!(mmap(start.add(at), BLOCK, READ_AND_WRITE, SHARED_AND_FIXED, file, 0), start.add(at));
        }
        for (at, length) in [(0, BLOCK), (1 << 32, ROOM)] {
            assert_eq!(mprotect(start.add(at), length, READ_AND_WRITE), 0);
            start.add(at).write_bytes(REST, length);
        }
        start.add(BLOCK).write_bytes(REST, BLOCK);
        let judged = Judged::new(format, &[], LENGTH);
        let mut both = Both::new(Lent { start, length: LENGTH }, &judged, &[]);
        both.build()?;
        let parts = [(0, rom(format, BLOCK)), (BLOCK, vec![0; BLOCK]), (1 << 32, vec![0; ROOM])];
        if let Some((at, _)) = parts.iter().find(|(at, content)| slice::from_raw_parts(start.add(*at), content.len()) != content) {
            return Err(format!("build, {format}, length {LENGTH}: from byte {at} on is not the image and zeros"));
        }
        assert_eq!(munmap(start, LENGTH + PAGE), 0);
        assert_eq!(close(file), 0);
        Ok(both.cases)
    }
}

/// A full ROM, of which most pages are never written: it passes the check, and a byte that is not zero is named wherever it stands, that of
/// the filling bits too.
fn checked_beyond(format: Format) -> Counted {
    let mut cases = 0;
    unsafe {
        let start = mmap(ptr::null_mut(), LENGTH + PAGE, NOTHING, PRIVATE_AND_ANONYMOUS | NOT_RESERVED, -1, 0);
        assert_ne!(start as isize, -1, "no pages to be had");
        assert_eq!(mprotect(start, LENGTH, READ_AND_WRITE), 0);
        let lent = Lent { start, length: LENGTH };
        let (bits, image) = (table(format).bits.len(), &table(format).image);
        start.copy_from_nonoverlapping(image.as_ptr(), image.len());
        // Where there are filling bits, their byte and the last one are enough.
        let places = match bits % 8 {
            0 => vec![LENGTH - 1, (1 << 32) + image.len(), 1 << 32, (1 << 32) - 1, image.len()],
            _ => vec![LENGTH - 1, image.len() - 1],
        };
        for at in [None].into_iter().chain(places.into_iter().map(Some)) {
            let mut judged = Judged::new(format, image, LENGTH);
            if let Some(at) = at {
                *start.add(at) |= 1; // the last bit of the image is a filling bit, where it has one
                judged.stray_at(at);
            }
            let mut both = Both::new(lent, &judged, image);
            both.check()?;
            cases += both.cases;
            if let Some(at) = at {
                *start.add(at) &= !1;
            }
        }
        assert_eq!(munmap(start, LENGTH + PAGE), 0);
    }
    Ok(cases)
}
