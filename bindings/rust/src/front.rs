//! The beginning of a source: its header and nonce.

use std::io::{self, Read};

use crate::ffi::NONCE;
use crate::header::{inspect, unlock};
use crate::{Error, FileKey, Header, Identity};

/// The maximum number of bytes read at once. Most headers are shorter.
const PIECE: usize = 4096;
/// Added to the number of bytes read, in the bound on the number of bytes parsed (`is_due`).
const MARGIN: usize = 4096;
/// The length of a header's last line.
const LAST_LINE: usize = 48;

/// Repeats a call that is interrupted.
pub fn again<T>(mut call: impl FnMut() -> io::Result<T>) -> io::Result<T> {
    loop {
        match call() {
            Err(error) if error.kind() == io::ErrorKind::Interrupted => {}
            result => return result,
        }
    }
}

/// Reads once, and repeats an interrupted read.
pub fn read_some(source: &mut impl Read, buf: &mut [u8]) -> io::Result<usize> {
    let count = again(|| source.read(buf))?;
    if count > buf.len() {
        return Err(io::Error::new(io::ErrorKind::Other, "the source returned more bytes than it was asked for"));
    }
    Ok(count)
}

/// Fills the buffer from `have` on, until it is full or the source ends. Adds the bytes read to
/// `have`, even if a read fails.
pub fn fill(source: &mut impl Read, buf: &mut [u8], have: &mut usize) -> io::Result<()> {
    while *have < buf.len() {
        match read_some(source, &mut buf[*have..])? {
            0 => break,
            count => *have += count,
        }
    }
    Ok(())
}

/// All bytes read until the nonce was complete, and the file key. A failed read loses nothing.
#[derive(Default)]
pub struct Front {
    pub bytes: Vec<u8>,
    file_key: Option<FileKey>,
    header: Option<Header>,
    /// The number of bytes parsed, over all attempts to parse the header.
    tried: usize,
}

impl Front {
    /// Makes no further read after the header until the file key is found, so that a wrong key is
    /// reported before the payload has arrived.
    pub fn read(&mut self, source: &mut impl Read, identities: &[&dyn Identity]) -> io::Result<()> {
        let header = match self.header.take() {
            Some(header) => header,
            None => self.read_header(source)?,
        };
        let header = self.header.insert(header);
        if self.file_key.is_none() {
            self.file_key = Some(unlock(header, identities)?);
        }
        let needed = header.text().len() + NONCE;
        while self.bytes.len() < needed && self.read_more(source)? {}
        Ok(())
    }

    fn read_header(&mut self, source: &mut impl Read) -> io::Result<Header> {
        loop {
            let had = self.bytes.len();
            let has_more = self.read_more(source)?;
            if has_more && !self.is_due(had) {
                continue;
            }
            self.tried += self.bytes.len();
            match inspect(&self.bytes) {
                Err(Error::HeaderTruncated) if has_more => {}
                result => return Ok(result?),
            }
        }
    }

    /// Whether to parse the header now. Before the last read there were `had` bytes. Each read may
    /// complete or spoil the header, so true after each; but while too many bytes have been parsed
    /// for those read, true only after a read of what may be the header's last line.
    fn is_due(&self, had: usize) -> bool {
        let new = &self.bytes[had.saturating_sub(LAST_LINE)..];
        self.tried <= 16 * (self.bytes.len() + MARGIN) || new.windows(4).any(|four| four == b"\n---")
    }

    fn read_more(&mut self, source: &mut impl Read) -> io::Result<bool> {
        let mut piece = [0; PIECE];
        let count = read_some(source, &mut piece)?;
        self.bytes.extend_from_slice(&piece[..count]);
        Ok(count > 0)
    }

    /// The file key, once an identity has found it.
    pub fn file_key(&self) -> Result<&FileKey, Error> {
        self.file_key.as_ref().ok_or(Error::NoMatch)
    }
}
