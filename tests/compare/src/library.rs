//! The library, as the C header declares it; declared here once more, so that no code of the Rust crate stands between.
use std::fmt::{self, Display, Formatter};

/// The table that a call is asked for: its precision, its form, 0 for plain words and any other number for full ones, and its guard bits.
#[repr(C)]
#[derive(Clone, Copy, Debug, PartialEq, Eq)]
pub struct Format {
    pub precision: u32,
    pub form: u32,
    pub table_guard_bits: u32,
    pub input_guard_bits: u32,
}

impl Format {
    /// Plain words with two and three guard bits.
    pub const fn plain(precision: u32) -> Format {
        Format { precision, form: 0, table_guard_bits: 2, input_guard_bits: 3 }
    }

    /// Full words with the same.
    pub const fn full(precision: u32) -> Format {
        Format { form: 1, ..Format::plain(precision) }
    }

    pub const fn with_guard_bits(self, table_guard_bits: u32, input_guard_bits: u32) -> Format {
        Format { table_guard_bits, input_guard_bits, ..self }
    }
}

impl Display for Format {
    fn fmt(&self, out: &mut Formatter) -> fmt::Result {
        let Format { precision, form, table_guard_bits, input_guard_bits } = self;
        write!(out, "k {precision}, form {form}, a {table_guard_bits}, b {input_guard_bits}")
    }
}

/// What a call answers: the number of a refusal or 0, its place, and the value of a served call in the unit of that call.
#[repr(C)]
#[derive(Clone, Copy, Debug, PartialEq, Eq)]
pub struct Answer {
    pub number: u32,
    pub place: u64,
    pub value: u64,
}

/// A count of table units, as it is answered by itself.
#[repr(C)]
#[derive(Clone, Copy, Debug, PartialEq, Eq)]
pub struct TableUnits {
    pub count: u64,
}

/// Where the bytes of a word stand in the caller's image; 0, 0 where none are shown.
#[repr(C)]
#[derive(Clone, Copy, Debug, PartialEq, Eq)]
pub struct Part {
    pub offset: usize,
    pub count: usize,
}

/// Bytes as they are lent to a call: where they start, and how many there are said to be.
#[derive(Clone, Copy)]
pub struct Lent {
    pub start: *mut u8,
    pub length: usize,
}

mod declared {
    use super::{Answer, Format, Part, TableUnits};

    extern "C" {
        pub fn yildegga_image_length(format: Format) -> usize;
        pub fn yildegga_build(format: Format, image: *mut u8, length: usize) -> Answer;
        pub fn yildegga_check(format: Format, image: *const u8, length: usize) -> Answer;
        pub fn yildegga_node(format: Format, image: *const u8, length: usize, j: u32) -> Answer;
        pub fn yildegga_node_8(j: u32) -> TableUnits;
        pub fn yildegga_word_bytes(format: Format, image: *const u8, length: usize, j: u32) -> Part;
        pub fn yildegga_reciprocal(format: Format, image: *const u8, length: usize, n: u32, x: u64) -> Answer;
        pub fn yildegga_bound_node(format: Format, image: *const u8, length: usize, j: u32) -> Answer;
        pub fn yildegga_bound_reciprocal(format: Format, image: *const u8, length: usize, n: u32, x: u64) -> Answer;
    }
}

pub fn image_length(format: Format) -> usize {
    unsafe { declared::yildegga_image_length(format) }
}

pub fn build(format: Format, image: Lent) -> Answer {
    unsafe { declared::yildegga_build(format, image.start, image.length) }
}

pub fn check(format: Format, image: Lent) -> Answer {
    unsafe { declared::yildegga_check(format, image.start, image.length) }
}

pub fn node(format: Format, image: Lent, j: u32) -> Answer {
    unsafe { declared::yildegga_node(format, image.start, image.length, j) }
}

pub fn node_8(j: u32) -> TableUnits {
    unsafe { declared::yildegga_node_8(j) }
}

pub fn word_bytes(format: Format, image: Lent, j: u32) -> Part {
    unsafe { declared::yildegga_word_bytes(format, image.start, image.length, j) }
}

#[inline(always)]
pub fn reciprocal(format: Format, image: Lent, n: u32, x: u64) -> Answer {
    unsafe { declared::yildegga_reciprocal(format, image.start, image.length, n, x) }
}

pub fn bound_node(format: Format, image: Lent, j: u32) -> Answer {
    unsafe { declared::yildegga_bound_node(format, image.start, image.length, j) }
}

#[inline(always)]
pub fn bound_reciprocal(format: Format, image: Lent, n: u32, x: u64) -> Answer {
    unsafe { declared::yildegga_bound_reciprocal(format, image.start, image.length, n, x) }
}

/// The same calls with whole registers: a format is two of them, the precision in the lower half of the first and the form in its upper half,
/// table and input guard bits in the halves of the second. Of a register for one number of 32 bits what stands in the upper half is no part of
/// the number.
#[allow(clashing_extern_declarations)]
pub mod wide {
    use super::{Answer, Lent, Part, TableUnits};

    mod declared {
        use super::{Answer, Part, TableUnits};

        extern "C" {
            pub fn yildegga_image_length(table: u64, guard_bits: u64) -> usize;
            pub fn yildegga_build(table: u64, guard_bits: u64, image: *mut u8, length: usize) -> Answer;
            pub fn yildegga_check(table: u64, guard_bits: u64, image: *const u8, length: usize) -> Answer;
            pub fn yildegga_node(table: u64, guard_bits: u64, image: *const u8, length: usize, j: u64) -> Answer;
            pub fn yildegga_node_8(j: u64) -> TableUnits;
            pub fn yildegga_word_bytes(table: u64, guard_bits: u64, image: *const u8, length: usize, j: u64) -> Part;
            pub fn yildegga_reciprocal(table: u64, guard_bits: u64, image: *const u8, length: usize, n: u64, x: u64) -> Answer;
            pub fn yildegga_bound_node(table: u64, guard_bits: u64, image: *const u8, length: usize, j: u64) -> Answer;
            pub fn yildegga_bound_reciprocal(table: u64, guard_bits: u64, image: *const u8, length: usize, n: u64, x: u64) -> Answer;
        }
    }

    /// The two registers of a format.
    #[derive(Clone, Copy)]
    pub struct Format(pub u64, pub u64);

    pub fn image_length(format: Format) -> usize {
        unsafe { declared::yildegga_image_length(format.0, format.1) }
    }

    pub fn build(format: Format, image: Lent) -> Answer {
        unsafe { declared::yildegga_build(format.0, format.1, image.start, image.length) }
    }

    pub fn check(format: Format, image: Lent) -> Answer {
        unsafe { declared::yildegga_check(format.0, format.1, image.start, image.length) }
    }

    pub fn node(format: Format, image: Lent, j: u64) -> Answer {
        unsafe { declared::yildegga_node(format.0, format.1, image.start, image.length, j) }
    }

    pub fn node_8(j: u64) -> TableUnits {
        unsafe { declared::yildegga_node_8(j) }
    }

    pub fn word_bytes(format: Format, image: Lent, j: u64) -> Part {
        unsafe { declared::yildegga_word_bytes(format.0, format.1, image.start, image.length, j) }
    }

    pub fn reciprocal(format: Format, image: Lent, n: u64, x: u64) -> Answer {
        unsafe { declared::yildegga_reciprocal(format.0, format.1, image.start, image.length, n, x) }
    }

    pub fn bound_node(format: Format, image: Lent, j: u64) -> Answer {
        unsafe { declared::yildegga_bound_node(format.0, format.1, image.start, image.length, j) }
    }

    pub fn bound_reciprocal(format: Format, image: Lent, n: u64, x: u64) -> Answer {
        unsafe { declared::yildegga_bound_reciprocal(format.0, format.1, image.start, image.length, n, x) }
    }
}
