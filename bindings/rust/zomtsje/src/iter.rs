use crate::Cord;
use std::io::{self, BufRead, Read, Seek, SeekFrom};

const BLOCK: usize = 65_536;

/// The bytes of a cord by blocks of up to 65,536: see [`Cord::chunks`].
#[derive(Clone, Debug)]
pub struct Chunks {
    cord: Cord,
    next: u64,
}

impl Chunks {
    pub(crate) fn new(cord: Cord) -> Chunks {
        Chunks { cord, next: 0 }
    }
}

impl Iterator for Chunks {
    type Item = Vec<u8>;

    fn next(&mut self) -> Option<Vec<u8>> {
        let left = self.cord.len() - self.next;
        if left == 0 {
            return None;
        }
        let mut block = vec![0; left.min(BLOCK as u64) as usize];
        self.next += self.cord.read_at(self.next, &mut block) as u64;
        Some(block)
    }
}

/// The bytes of a cord one by one: see [`Cord::bytes`].
#[derive(Clone, Debug)]
pub struct Bytes {
    cord: Cord,
    front: u64,
    back: u64,
    block: Vec<u8>,
    start: u64,
}

impl Bytes {
    pub(crate) fn new(cord: Cord) -> Bytes {
        let back = cord.len();
        Bytes { cord, front: 0, back, block: Vec::new(), start: 0 }
    }

    // The byte at a place, from a block that begins there or ends with it.
    fn at(&mut self, place: u64, is_back: bool) -> u8 {
        let inside = place.wrapping_sub(self.start);
        if inside < self.block.len() as u64 {
            return self.block[inside as usize];
        }
        self.start = if is_back { (place + 1).saturating_sub(BLOCK as u64) } else { place };
        self.block.resize((self.cord.len() - self.start).min(BLOCK as u64) as usize, 0);
        self.cord.read_at(self.start, &mut self.block);
        self.block[(place - self.start) as usize]
    }
}

impl Iterator for Bytes {
    type Item = u8;

    fn next(&mut self) -> Option<u8> {
        if self.front == self.back {
            return None;
        }
        self.front += 1;
        Some(self.at(self.front - 1, false))
    }

    fn size_hint(&self) -> (usize, Option<usize>) {
        let left = usize::try_from(self.back - self.front);
        (left.unwrap_or(usize::MAX), left.ok())
    }
}

impl DoubleEndedIterator for Bytes {
    fn next_back(&mut self) -> Option<u8> {
        if self.front == self.back {
            return None;
        }
        self.back -= 1;
        Some(self.at(self.back, true))
    }
}

/// The lines of a cord: see [`Cord::lines`].
#[derive(Clone, Debug)]
pub struct Lines {
    cord: Cord,
    next: u64,
}

impl Lines {
    pub(crate) fn new(cord: Cord) -> Lines {
        Lines { cord, next: 0 }
    }
}

impl Iterator for Lines {
    type Item = Cord;

    fn next(&mut self) -> Option<Cord> {
        let (start, len) = (self.next, self.cord.len());
        if start >= len {
            return None;
        }
        let end = self.cord.find_byte(start, b'\n').unwrap_or(len);
        self.next = end + 1;
        Some(self.cord.slice(start..end))
    }
}

/// Reads the bytes of a cord as a file is read: see [`Cord::reader`].
#[derive(Clone, Debug)]
pub struct Reader {
    cord: Cord,
    place: u64,
    block: Vec<u8>,
    used: usize,
}

impl Reader {
    pub(crate) fn new(cord: Cord) -> Reader {
        Reader { cord, place: 0, block: Vec::new(), used: 0 }
    }
}

impl Read for Reader {
    fn read(&mut self, to: &mut [u8]) -> io::Result<usize> {
        let got = self.cord.read_at(self.place, to);
        self.consume(got);
        Ok(got)
    }
}

impl BufRead for Reader {
    fn fill_buf(&mut self) -> io::Result<&[u8]> {
        if self.used >= self.block.len() {
            self.block.resize((self.cord.len().saturating_sub(self.place)).min(BLOCK as u64) as usize, 0);
            self.cord.read_at(self.place, &mut self.block);
            self.used = 0;
        }
        Ok(&self.block[self.used..])
    }

    fn consume(&mut self, count: usize) {
        self.place += count as u64;
        self.used += count;
    }
}

impl Seek for Reader {
    fn seek(&mut self, to: SeekFrom) -> io::Result<u64> {
        let place = match to {
            SeekFrom::Start(place) => Some(place),
            SeekFrom::End(by) => self.cord.len().checked_add_signed(by),
            SeekFrom::Current(by) => self.place.checked_add_signed(by),
        };
        self.place = place.ok_or(io::ErrorKind::InvalidInput)?;
        self.block.clear();
        self.used = 0;
        Ok(self.place)
    }
}
