//! Reading any part of a plaintext.

use std::io::{self, Read, Seek, SeekFrom};
use std::ops::Range;

use crate::ffi::{self, Ranges, SEALED_CHUNK, TEXT_CHUNK};
use crate::front::{again, fill, Front};
use crate::{Error, Identity};

/// Reads any part of the plaintext of an age file, by [`Read`] and [`Seek`].
///
/// Opens the last chunk first, because it proves where the plaintext ends, and then only the chunks
/// that are read: damage in other chunks is not noticed. Every byte returned was verified.
///
/// ```
/// use std::io::{Cursor, Read, Seek, SeekFrom};
///
/// # fn main() -> std::io::Result<()> {
/// # let key = agefile::Key::new([7; 32]);
/// # let file = agefile::encrypt(b"one two three", &[&key])?;
/// let mut reader = agefile::RangeReader::new(Cursor::new(file), &[&key])?;
/// let mut word = [0; 3];
/// reader.seek(SeekFrom::Start(4))?;
/// reader.read_exact(&mut word)?;
/// assert_eq!(&word, b"two");
/// # Ok(())
/// # }
/// ```
pub struct RangeReader<R> {
    source: R,
    ranges: Ranges,
    /// The chunk opened last, its number, and its text.
    buf: Box<[u8]>,
    number: Option<u64>,
    text: Range<usize>,
    len: u64,
    position: u64,
}

impl<R: Read + Seek> RangeReader<R> {
    /// Reads the header, finds the file key with the first identity that matches, and opens the
    /// last chunk. The source must be the whole file, and the file must not change.
    pub fn new(mut source: R, identities: &[&dyn Identity]) -> io::Result<RangeReader<R>> {
        let file_len = again(|| source.seek(SeekFrom::End(0)))?;
        again(|| source.rewind())?;
        let mut front = Front::default();
        front.read(&mut source, identities)?;
        let (ranges, last) = ffi::ranges_open(&front.bytes, file_len, &front.file_key()?.0)?;
        let buf = vec![0; SEALED_CHUNK].into_boxed_slice();
        let mut reader = RangeReader { source, ranges, buf, number: None, text: 0..0, len: 0, position: 0 };
        let number = (last.place - reader.ranges.first) / SEALED_CHUNK as u64;
        reader.read_sealed(number, last.place, last.len as usize)?;
        let opened = ffi::ranges_last(&mut reader.ranges, &mut reader.buf[..last.len as usize])?;
        reader.len = opened.len;
        reader.keep(number, (opened.len - number * TEXT_CHUNK as u64) as usize);
        Ok(reader)
    }

    fn keep(&mut self, number: u64, len: usize) {
        self.number = Some(number);
        self.text = 0..len;
    }

    /// Reads a sealed chunk over the one kept.
    fn read_sealed(&mut self, number: u64, place: u64, len: usize) -> io::Result<()> {
        self.number = None;
        again(|| self.source.seek(SeekFrom::Start(place)))?;
        let mut have = 0;
        fill(&mut self.source, &mut self.buf[..len], &mut have)?;
        if have < len {
            return Err(Error::ChunkShort(number).into());
        }
        Ok(())
    }

    /// Opens a chunk, unless it is the one kept.
    fn load(&mut self, number: u64) -> io::Result<()> {
        if self.number == Some(number) {
            return Ok(());
        }
        let at = number * TEXT_CHUNK as u64;
        let place = ffi::ranges_locate(&self.ranges, at)?;
        self.read_sealed(number, place.place, place.len as usize)?;
        let opened = ffi::ranges_chunk(&self.ranges, at, &mut self.buf[..place.len as usize])?;
        self.keep(number, opened.len as usize);
        Ok(())
    }
}

impl<R> RangeReader<R> {
    /// Returns the length of the plaintext in bytes.
    pub fn len(&self) -> u64 {
        self.len
    }

    /// Returns whether the plaintext is empty.
    pub fn is_empty(&self) -> bool {
        self.len == 0
    }

    /// Returns the source.
    pub fn into_inner(self) -> R {
        self.source
    }
}

impl<R: Read + Seek> Read for RangeReader<R> {
    fn read(&mut self, out: &mut [u8]) -> io::Result<usize> {
        if out.is_empty() || self.position >= self.len {
            return Ok(0);
        }
        self.load(self.position / TEXT_CHUNK as u64)?;
        let start = (self.position % TEXT_CHUNK as u64) as usize;
        let count = out.len().min(self.text.end - start);
        out[..count].copy_from_slice(&self.buf[start..start + count]);
        self.position += count as u64;
        Ok(count)
    }
}

impl<R: Read + Seek> Seek for RangeReader<R> {
    fn seek(&mut self, to: SeekFrom) -> io::Result<u64> {
        let position = match to {
            SeekFrom::Start(at) => i128::from(at),
            SeekFrom::End(by) => i128::from(self.len) + i128::from(by),
            SeekFrom::Current(by) => i128::from(self.position) + i128::from(by),
        };
        let refused = |_| io::Error::new(io::ErrorKind::InvalidInput, "seek before the beginning");
        self.position = u64::try_from(position).map_err(refused)?;
        Ok(self.position)
    }
}

show!(RangeReader<R> { len, position });
