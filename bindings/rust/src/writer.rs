//! Writing a stream.

use std::fmt;
use std::io::{self, Write};

use crate::ffi::{self, Payload, SEALED_CHUNK, TAG, TEXT_CHUNK};
use crate::header::stanzas_text;
use crate::{Error, FileKey, Recipient};

/// Encrypts the bytes written to it, chunk by chunk, in constant memory. Only [`Writer::finish`]
/// completes the file: without it, or after a failed write to the sink, even one that would block,
/// every reader refuses the file.
///
/// ```
/// # fn main() -> std::io::Result<()> {
/// use std::io::Write;
///
/// # let key = agefile::Key::new([7; 32]);
/// let mut writer = agefile::Writer::new(Vec::new(), &[&key])?;
/// writeln!(writer, "one")?;
/// let file = writer.finish()?;
/// assert_eq!(agefile::decrypt(&file, &[&key])?, b"one\n");
/// # Ok(())
/// # }
/// ```
#[must_use = "a file is whole only after `finish`"]
pub struct Writer<W> {
    sink: W,
    payload: Payload,
    /// The text of the next chunk, and room for its tag.
    buf: Box<[u8]>,
    len: usize,
    has_failed: bool,
}

impl<W: Write> Writer<W> {
    /// Writes the header and the nonce of a new file for these recipients.
    ///
    /// Both are made before the first byte is written, so an error of a recipient leaves the sink
    /// unchanged. But `File::create` has emptied an existing file by then: write to a new name, and
    /// rename the file after [`Writer::finish`].
    pub fn new(mut sink: W, recipients: &[&dyn Recipient]) -> io::Result<Writer<W>> {
        let (file_key, nonce) = (FileKey(ffi::random()?), ffi::random()?);
        let stanzas = stanzas_text(recipients, &file_key)?;
        let mut front = vec![0; stanzas.len() + 256];
        let (payload, begun) = ffi::begin(&stanzas, &file_key.0, &nonce, &mut front)?;
        sink.write_all(&front[..begun.len as usize])?;
        let buf = vec![0; SEALED_CHUNK].into_boxed_slice();
        Ok(Writer { sink, payload, buf, len: 0, has_failed: false })
    }

    /// Seals the text as a chunk and writes it.
    fn put_chunk(&mut self, is_last: bool) -> io::Result<()> {
        if self.has_failed {
            return Err(Error::Incomplete.into());
        }
        self.has_failed = true;
        let sealed = ffi::seal_next(&mut self.payload, &mut self.buf[..self.len + TAG], is_last)?.len as usize;
        self.sink.write_all(&self.buf[..sealed])?;
        self.len = 0;
        self.has_failed = false;
        Ok(())
    }

    /// Writes the last chunk, flushes the sink, and returns it. A [`FinishError`] contains the sink
    /// too.
    pub fn finish(mut self) -> Result<W, FinishError<W>> {
        match self.put_chunk(true).and_then(|()| self.sink.flush()) {
            Ok(()) => Ok(self.sink),
            Err(error) => Err(FinishError { error, sink: self.sink }),
        }
    }
}

impl<W: Write> Write for Writer<W> {
    fn write(&mut self, text: &[u8]) -> io::Result<usize> {
        if text.is_empty() {
            return Ok(0);
        }
        // A full chunk may be the last one, so it waits for the byte after it.
        if self.len == TEXT_CHUNK {
            self.put_chunk(false)?;
        }
        let count = text.len().min(TEXT_CHUNK - self.len);
        self.buf[self.len..self.len + count].copy_from_slice(&text[..count]);
        self.len += count;
        Ok(count)
    }

    /// Flushes the sink. The text of the next chunk, up to 65,536 bytes, stays in the buffer.
    fn flush(&mut self) -> io::Result<()> {
        self.sink.flush()
    }
}

show!(Writer<W> { has_failed });

/// The error of a file that could not be completed, with its sink.
///
/// ```
/// # fn main() -> std::io::Result<()> {
/// # let key = agefile::Key::new([7; 32]);
/// let mut room = [0; 180];
/// let writer = agefile::Writer::new(&mut room[..], &[&key])?;
/// let failed = writer.finish().unwrap_err();
/// assert_eq!(failed.error().kind(), std::io::ErrorKind::WriteZero);
/// let (_, rest) = failed.into_parts();
/// assert!(rest.is_empty());
/// # Ok(())
/// # }
/// ```
pub struct FinishError<W> {
    error: io::Error,
    sink: W,
}

impl<W> FinishError<W> {
    /// Returns the reason why the file is not complete.
    pub fn error(&self) -> &io::Error {
        &self.error
    }

    /// Returns the error and the sink.
    pub fn into_parts(self) -> (io::Error, W) {
        (self.error, self.sink)
    }
}

show!(FinishError<W> { error });

impl<W> fmt::Display for FinishError<W> {
    fn fmt(&self, f: &mut fmt::Formatter<'_>) -> fmt::Result {
        self.error.fmt(f)
    }
}

impl<W> std::error::Error for FinishError<W> {}

impl<W> From<FinishError<W>> for io::Error {
    fn from(error: FinishError<W>) -> io::Error {
        error.error
    }
}
