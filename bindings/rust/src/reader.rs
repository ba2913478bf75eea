//! Reading a stream.

use std::fmt;
use std::io::{self, BufRead, Read};
use std::ops::Range;

use crate::ffi::{self, Payload, SEALED_CHUNK};
use crate::front::{fill, Front};
use crate::{Error, Identity};

/// Reads the header of an age file from a nonblocking source, and then becomes a [`Reader`].
///
/// ```
/// # use std::io::{ErrorKind, Read};
/// # fn main() -> std::io::Result<()> {
/// # let key = agefile::Key::new([7; 32]);
/// # let file = agefile::encrypt(b"text", &[&key])?;
/// # let source = &file[..];
/// let mut opening = agefile::Opening::new(source);
/// while let Err(error) = opening.read(&[&key]) {
///     if error.kind() != ErrorKind::WouldBlock {
///         return Err(error);
///     }
///     // Wait until the source has more.
/// }
/// let reader = opening.finish()?;
/// # drop(reader);
/// # Ok(())
/// # }
/// ```
pub struct Opening<R> {
    source: R,
    front: Front,
}

impl<R: Read> Opening<R> {
    /// Makes an `Opening` over this source, without reading.
    pub fn new(source: R) -> Opening<R> {
        Opening { source, front: Front::default() }
    }

    /// Reads the header and the nonce, and finds the file key. After an error, such as that of a
    /// read that would block, it can be called again: the bytes read and the key found are kept.
    pub fn read(&mut self, identities: &[&dyn Identity]) -> io::Result<()> {
        self.front.read(&mut self.source, identities)
    }

    /// Verifies the header's MAC and returns the reader. [`Opening::read`] must have returned `Ok`.
    pub fn finish(self) -> Result<Reader<R>, Error> {
        let (payload, begun) = ffi::open(&self.front.bytes, &self.front.file_key()?.0)?;
        let mut ahead = io::Cursor::new(self.front.bytes);
        ahead.set_position(begun.len);
        let buf = vec![0; SEALED_CHUNK + 1].into_boxed_slice();
        let (source, text, fault) = (self.source, 0..0, None);
        Ok(Reader { source, payload, ahead, buf, sealed: 0, first: 0, text, has_ended: false, fault })
    }
}

impl<R> fmt::Debug for Opening<R> {
    fn fmt(&self, f: &mut fmt::Formatter<'_>) -> fmt::Result {
        f.debug_struct("Opening").field("len", &self.front.bytes.len()).finish_non_exhaustive()
    }
}

/// Decrypts an age file, chunk by chunk, in constant memory.
///
/// Every byte returned was verified. The plaintext is complete only after a read into a nonempty
/// buffer returned `Ok(0)`.
///
/// An [`Error`] is returned again by every later read into a nonempty buffer. That of a damaged or
/// truncated chunk never has the kind `UnexpectedEof`, which `read_exact` returns at the end of the
/// plaintext. After a failed read of the source, such as `WouldBlock`, reading can continue.
///
/// ```
/// # fn main() -> std::io::Result<()> {
/// # let key = agefile::Key::new([7; 32]);
/// # let file = agefile::encrypt(b"one\ntwo\n", &[&key])?;
/// let reader = agefile::Reader::new(&file[..], &[&key])?;
/// for line in std::io::BufRead::lines(std::io::BufReader::new(reader)) {
///     println!("{}", line?);
/// }
/// # Ok(())
/// # }
/// ```
pub struct Reader<R> {
    source: R,
    payload: Payload,
    /// The bytes read after the nonce that are not used yet.
    ahead: io::Cursor<Vec<u8>>,
    /// A chunk, sealed or opened, and the byte after it, which shows that it is not the last.
    buf: Box<[u8]>,
    /// The number of bytes read of the next sealed chunk, and the first of these bytes, kept here
    /// because the opened text may be in its place in `buf`.
    sealed: usize,
    first: u8,
    /// The text in `buf` that was not returned yet.
    text: Range<usize>,
    has_ended: bool,
    fault: Option<Error>,
}

impl<R: Read> Reader<R> {
    /// Reads the header, and finds the file key with the first identity that matches. Reads on only
    /// then, so a wrong key is reported before the payload has arrived. For a nonblocking source,
    /// use an [`Opening`].
    pub fn new(source: R, identities: &[&dyn Identity]) -> io::Result<Reader<R>> {
        let mut opening = Opening::new(source);
        opening.read(identities)?;
        Ok(opening.finish()?)
    }

    /// Returns the source. Bytes read ahead are lost.
    pub fn into_inner(self) -> R {
        self.source
    }

    /// Reads and opens the next chunk.
    fn advance(&mut self) -> io::Result<()> {
        if let Some(fault) = self.fault {
            return Err(fault.into());
        }
        if self.sealed > 0 {
            self.buf[0] = self.first;
        }
        let filled = fill(&mut (&mut self.ahead).chain(&mut self.source), &mut self.buf, &mut self.sealed);
        if filled.is_err() && self.sealed > 0 {
            self.first = self.buf[0];
        }
        filled?;
        let len = self.sealed.min(SEALED_CHUNK);
        let is_last = self.sealed == len;
        match ffi::open_next(&mut self.payload, &mut self.buf[..len], is_last) {
            Ok(report) => self.text = 0..report.len as usize,
            Err(fault) => {
                self.fault = Some(fault);
                return Err(fault.into());
            }
        }
        self.has_ended = is_last;
        self.first = self.buf[SEALED_CHUNK];
        self.sealed = 1;
        Ok(())
    }
}

impl<R: Read> Read for Reader<R> {
    fn read(&mut self, out: &mut [u8]) -> io::Result<usize> {
        if out.is_empty() {
            return Ok(0);
        }
        let text = self.fill_buf()?;
        let count = out.len().min(text.len());
        out[..count].copy_from_slice(&text[..count]);
        self.consume(count);
        Ok(count)
    }
}

/// The buffer holds the text of one chunk.
impl<R: Read> BufRead for Reader<R> {
    fn fill_buf(&mut self) -> io::Result<&[u8]> {
        if self.text.is_empty() && !self.has_ended {
            self.advance()?;
        }
        Ok(&self.buf[self.text.clone()])
    }

    fn consume(&mut self, count: usize) {
        self.text.start += count.min(self.text.len());
    }
}

show!(Reader<R> { fault });
