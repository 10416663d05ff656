//! One call made of the library and of the independent implementation, and the two answers compared.
use crate::independent::{has_table, table, Judged};
use crate::library::{self, Format, Lent};
use std::cell::Cell;
use std::fmt::{self, Debug, Display, Formatter};

/// A call and the numbers that it is given.
#[derive(Clone, Copy)]
enum Call {
    None,
    Build,
    Check,
    Node { j: u32 },
    WordBytes { j: u32 },
    Reciprocal { n: u32, x: u64 },
}

/// A call on a buffer that is said to have a length.
#[derive(Clone, Copy)]
pub struct Called {
    call: Call,
    format: Format,
    length: usize,
}

thread_local! {
    static CALLED: Cell<Called> = const { Cell::new(Called { call: Call::None, format: Format::plain(0), length: 0 }) };
}

/// The call that this thread makes, or made last.
pub fn called() -> Called {
    CALLED.get()
}

impl Display for Called {
    fn fmt(&self, out: &mut Formatter) -> fmt::Result {
        match self.call {
            Call::None => write!(out, "a call"),
            Call::Build => write!(out, "build"),
            Call::Check => write!(out, "check"),
            Call::Node { j } => write!(out, "node, j {j}"),
            Call::WordBytes { j } => write!(out, "word bytes, j {j}"),
            Call::Reciprocal { n, x } => write!(out, "reciprocal, n {n}, x {x}"),
        }?;
        write!(out, ", {}, length {}", self.format, self.length)
    }
}

/// A lent buffer, and what the independent implementation knows of it.
pub struct Both<'a> {
    pub lent: Lent,
    pub judged: &'a Judged,
    /// The bytes of the buffer, to be told where the answers differ.
    pub bytes: &'a [u8],
    /// The cases compared so far: the call itself and the one through a bound table are one.
    pub cases: u64,
}

impl<'a> Both<'a> {
    pub fn new(lent: Lent, judged: &'a Judged, bytes: &'a [u8]) -> Both<'a> {
        Both { lent, judged, bytes, cases: 0 }
    }

    fn calling(&mut self, call: Call) {
        self.cases += 1;
        CALLED.set(Called { call, format: self.judged.format, length: self.lent.length });
    }

    fn same<A: PartialEq + Debug>(&self, found: A, expected: A) -> Result<(), String> {
        if found == expected {
            return Ok(());
        }
        let content = told(self.judged.format, self.bytes);
        Err(format!(
            "{}, at {:?}: the library gives {found:?}, expected is {expected:?}; the buffer is {content}",
            called(),
            self.lent.start
        ))
    }

    pub fn check(&mut self) -> Result<(), String> {
        self.calling(Call::Check);
        self.same(library::check(self.judged.format, self.lent), self.judged.check())
    }

    pub fn node(&mut self, j: u32) -> Result<(), String> {
        self.calling(Call::Node { j });
        let expected = self.judged.node(j);
        self.same(library::node(self.judged.format, self.lent, j), expected)?;
        self.same(("bound", library::bound_node(self.judged.format, self.lent, j)), ("bound", expected))
    }

    pub fn word_bytes(&mut self, j: u32) -> Result<(), String> {
        self.calling(Call::WordBytes { j });
        self.same(library::word_bytes(self.judged.format, self.lent, j), self.judged.word_bytes(j))
    }

    pub fn reciprocal(&mut self, n: u32, x: u64) -> Result<(), String> {
        self.calling(Call::Reciprocal { n, x });
        let expected = self.judged.reciprocal(n, x);
        self.same(library::reciprocal(self.judged.format, self.lent, n, x), expected)?;
        self.same(("bound", library::bound_reciprocal(self.judged.format, self.lent, n, x)), ("bound", expected))
    }

    /// An operand, and another that has to get the same answer. It may have more fraction bits, as it has where bits stand to the right.
    pub fn alike(&mut self, n: u32, x: u64, other_n: u32, other_x: u64) -> Result<(), String> {
        self.reciprocal(n, x)?;
        let alone = library::reciprocal(self.judged.format, self.lent, n, x);
        self.calling(Call::Reciprocal { n: other_n, x: other_x });
        self.same(library::reciprocal(self.judged.format, self.lent, other_n, other_x), alone)?;
        self.same(("bound", library::bound_reciprocal(self.judged.format, self.lent, other_n, other_x)), ("bound", alone))
    }

    /// The builder's answer. What it leaves in the buffer is for the buffer's owner to compare.
    pub fn build(&mut self) -> Result<(), String> {
        self.calling(Call::Build);
        self.same(library::build(self.judged.format, self.lent), self.judged.build())
    }
}

/// A buffer's content in words: by its difference from the image where that is a few bits, else byte by byte.
pub fn told(format: Format, bytes: &[u8]) -> String {
    if has_table(format) && bytes.len() >= table(format).image.len() {
        let mut bits = table(format).bits.clone();
        bits.resize(8 * table(format).image.len(), false);
        let changed: Vec<usize> = (0..bits.len()).filter(|bit| (bytes[bit / 8] >> (7 - bit % 8) & 1 == 1) != bits[*bit]).collect();
        let past = table(format).image.len();
        let stray: Vec<usize> = (past..bytes.len()).filter(|at| bytes[*at] != 0).take(16).collect();
        if changed.len() <= 16 {
            let more = bytes.len() - past;
            return format!(
                "the image of {format} with the bits {changed:?} changed and {more} bytes past it, the first that are not zero: {stray:?}"
            );
        }
    }
    format!("{bytes:02x?}")
}
