//! Buffers to be lent, with guard bytes before and after them, of which every byte is known.
use crate::library::Lent;

/// The guard bytes on each side. There are none in a run under a memory checker, which itself watches both sides of a block.
#[derive(Clone, Copy)]
pub enum Guards {
    Bytes,
    Watched,
}

impl Guards {
    fn count(self) -> usize {
        match self {
            Guards::Bytes => 64,
            Guards::Watched => 0,
        }
    }

    /// As many bytes, or up to 63 more, so that what follows them in the room stands at a multiple of 64.
    fn before(self, room: *const u8) -> usize {
        match self {
            Guards::Bytes => self.count() + (room as usize).wrapping_neg() % 64,
            Guards::Watched => 0,
        }
    }
}

/// A buffer in a room of its own, and what each byte of the room has to be.
pub struct Buffer {
    room: Vec<u8>,
    kept: Vec<u8>,
    first: usize,
    length: usize,
}

impl Buffer {
    /// A buffer with this content, `shift` bytes after an address that is a multiple of 64; without guard bytes, of 16.
    pub fn new(guards: Guards, shift: usize, content: &[u8]) -> Buffer {
        let most = 2 * guards.count() + shift + content.len();
        let mut room: Vec<u8> = (0..most + guards.count()).map(|at| (at * 151 + 43) as u8).collect();
        let first = guards.before(room.as_ptr()) + shift;
        room.truncate(first + content.len() + guards.count());
        room[first..first + content.len()].copy_from_slice(content);
        Buffer { kept: room.clone(), room, first, length: content.len() }
    }

    /// All of the buffer, to be lent.
    pub fn lent(&mut self) -> Lent {
        Lent { start: self.room[self.first..].as_mut_ptr(), length: self.length }
    }

    /// What the bytes have to be.
    pub fn bytes(&self) -> &[u8] {
        &self.kept[self.first..self.first + self.length]
    }

    /// From now on the front of the buffer has to have this content, which a call has to write.
    pub fn awaits(&mut self, content: &[u8]) {
        self.kept[self.first..self.first + content.len()].copy_from_slice(content);
    }

    /// Writes the content at the front of the buffer.
    pub fn put(&mut self, content: &[u8]) {
        self.awaits(content);
        self.room[self.first..self.first + content.len()].copy_from_slice(content);
    }

    /// Changes one bit, counted from the most significant of byte 0.
    pub fn flip(&mut self, bit: usize) {
        self.room[self.first + bit / 8] ^= 128 >> (bit % 8);
        self.kept[self.first + bit / 8] ^= 128 >> (bit % 8);
    }

    /// Whether the buffer and the guard bytes are what they have to be.
    pub fn as_kept(&self, after: impl FnOnce() -> String) -> Result<(), String> {
        if self.room == self.kept {
            return Ok(());
        }
        let at = (0..self.room.len()).find(|at| self.room[*at] != self.kept[*at]).expect("they differ");
        let place = at as i64 - self.first as i64;
        Err(format!(
            "after {}: byte {place} of a buffer of {} bytes is {:02x}, expected is {:02x}",
            after(),
            self.length,
            self.room[at],
            self.kept[at]
        ))
    }
}
