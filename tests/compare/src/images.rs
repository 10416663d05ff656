//! Right images: built, checked, and every node and word read. The nodes that need no image.
use crate::both::Both;
use crate::independent::{constant_node, has_table, length, power, rom, table, Judged, FORMS, GREATEST, LEAST, TABLE_GUARD_BITS};
use crate::lent::{Buffer, Guards};
use crate::library::{self, Format, TableUnits};
use crate::random::Random;
use crate::work::{share, Counted};

/// What stands in a buffer before an image is built there, by its name.
fn contents(format: Format, length: usize) -> Vec<(&'static str, Vec<u8>)> {
    let Format { precision: k, form, table_guard_bits: a, .. } = format;
    let image = &table(format).image;
    let rest = vec![0x5A; length - image.len()];
    let complement: Vec<u8> = image.iter().map(|byte| !byte).collect();
    let other = &table(Format { precision: if k == GREATEST { LEAST } else { k + 1 }, ..format }).image;
    let other_form = &table(Format { form: 1 - form, ..format }).image;
    let other_table = &table(Format { table_guard_bits: if a == *TABLE_GUARD_BITS.end() { 2 } else { a + 1 }, ..format }).image;
    vec![
        ("zeros", vec![0; length]),
        ("ones", vec![0xFF; length]),
        ("a count by 7", (0..length).map(|at| (at * 7) as u8).collect()),
        ("random bytes", Random::new(length as u64).bytes(length)),
        ("the image", [&image[..], &rest].concat()),
        ("its complement", [&complement[..], &rest].concat()),
        ("another image", other.iter().cycle().take(length).copied().collect()),
        ("the image in the other form", other_form.iter().cycle().take(length).copied().collect()),
        ("the image with other table guard bits", other_table.iter().cycle().take(length).copied().collect()),
    ]
}

/// Images built in buffers of their own length and longer ones, with zeros to their ends, over what stood there.
pub fn built(guards: Guards, formats: &[Format], shifts: &[usize]) -> Counted {
    let works: Vec<(Format, usize)> = formats.iter().flat_map(|format| shifts.iter().map(move |shift| (*format, *shift))).collect();
    share(&works, |&(format, shift)| {
        let image = &table(format).image;
        let mut cases = 0;
        for more in [0, 1, 2, 3, 7, 8, 9, 16, 255, 14340] {
            let length = image.len() + more;
            for (name, content) in contents(format, length) {
                let mut buffer = Buffer::new(guards, shift, &content);
                let judged = Judged::new(format, &content, length);
                Both::new(buffer.lent(), &judged, &content).build()?;
                buffer.awaits(&rom(format, length));
                buffer.as_kept(|| format!("build, {format}, length {length}, over {name}, {shift} bytes after a multiple of 64"))?;
                cases += 1;
            }
        }
        Ok(cases)
    })
}

/// Images checked, every node and the two after the last one read, every word shown, at each shift and with bytes after it, zeros and others.
pub fn read(guards: Guards, formats: &[Format], shifts: &[usize]) -> Counted {
    let works: Vec<(Format, usize)> = formats.iter().flat_map(|format| shifts.iter().map(move |shift| (*format, *shift))).collect();
    share(&works, |&(format, shift)| {
        let image = &table(format).image;
        let mut cases = 0;
        for (more, byte) in [(0, 0), (1, 0xA5), (17, 0), (17, 0xA5)] {
            let content = [&image[..], &vec![byte; more]].concat();
            let mut buffer = Buffer::new(guards, shift, &content);
            let judged = Judged::new(format, &content, content.len());
            let mut both = Both::new(buffer.lent(), &judged, &content);
            both.check()?;
            for j in 0..power(format.precision) as u32 + 3 {
                both.node(j)?;
                both.word_bytes(j)?;
            }
            cases += both.cases;
            buffer.as_kept(|| {
                format!("check, node and word bytes, {format}, its image and {more} bytes {byte:#x}, {shift} bytes after a multiple of 64")
            })?;
        }
        Ok(cases)
    })
}

/// Compares the image length of a format, and 0 where it has no table.
pub fn same_length(format: Format) -> Counted {
    let expected = if has_table(format) { length(format) } else { 0 };
    let found = library::image_length(format);
    if found != expected {
        return Err(format!("image length, {format}: the library gives {found}, expected is {expected}"));
    }
    Ok(1)
}

/// The image length of each precision, and of numbers that are none.
pub fn lengths() -> Counted {
    let others = (0..32).flat_map(|at| [1u32 << at, (1 << at) - 1, (1 << at) + 1, u32::MAX - (1 << at), (1 << at) | 5]);
    let precisions = (0..70).chain(others).chain([u32::MAX]);
    precisions.flat_map(|k| FORMS.map(|form| same_length(Format { form, ..Format::plain(k) }))).sum()
}

/// The same with table and input guard bits that are served, those beside them, and others, which may be the same in fewer bits.
pub fn other_lengths() -> Counted {
    let numbers = || (0..10).chain((4..32).flat_map(|at| [1 << at, (1 << at) + 2, (1 << at) + 3, u32::MAX - (1 << at)])).chain([u32::MAX]);
    let mut cases = 0;
    for k in (0..=14).chain([31, 32, 256, 257, 268, 65538, 1 << 31, (1 << 31) + 2, u32::MAX]) {
        for form in FORMS {
            for a in numbers() {
                for b in numbers() {
                    cases += same_length(Format { precision: k, form, table_guard_bits: a, input_guard_bits: b })?;
                }
            }
        }
    }
    Ok(cases)
}

/// The constant nodes of precision 8, and numbers above the last one.
pub fn constant_nodes() -> Counted {
    let last = power(8) as u32;
    let others = (9..32).flat_map(|at| [1u32 << at, (1 << at) - 1, (1 << at) + 1, (1 << at) + last, u32::MAX - (1 << at)]);
    let mut cases = 0;
    for j in (0..=300).chain(others).chain([u32::MAX - last, u32::MAX - 1, u32::MAX]) {
        let expected = TableUnits { count: constant_node(j) };
        let found = library::node_8(j);
        if found != expected {
            return Err(format!("constant node, j {j}: the library gives {found:?}, expected is {expected:?}"));
        }
        cases += 1;
    }
    Ok(cases)
}
