//! Blocks of memory that nothing was written to, for a run under a memory checker: it reports a byte that a builder leaves out, or
//! makes from what stood there.
use crate::both::Both;
use crate::independent::{rom, table, Judged};
use crate::library::{Format, Lent};
use crate::work::Counted;
use std::alloc::{alloc, dealloc, Layout};
use std::slice;

pub fn built(formats: &[Format]) -> Counted {
    let mut cases = 0;
    for (format, more) in formats.iter().flat_map(|format| [0, 1, 15, 64, 200].map(|more| (*format, more))) {
        let full = rom(format, table(format).image.len() + more);
        let block = Layout::array::<u8>(full.len()).expect("a short block");
        let judged = Judged::new(format, &full, full.len());
        unsafe {
            let start = alloc(block);
            assert!(!start.is_null());
            let mut both = Both::new(Lent { start, length: full.len() }, &judged, &full);
            both.build()?;
            both.check()?;
            cases += both.cases;
            if slice::from_raw_parts(start, full.len()) != full {
                return Err(format!(
                    "build, {format}, in a block of {} bytes that was not written to: what is in it is not the image and zeros",
                    full.len()
                ));
            }
            dealloc(start, block);
        }
    }
    Ok(cases)
}
