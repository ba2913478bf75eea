//! Saving what is left of a damaged file.

use std::io::{self, Read, Seek, SeekFrom, Write};
use std::ops::Range;

use crate::ffi::{self, Report, SEALED_CHUNK, TAG};
use crate::front::{again, fill, read_some, Front};
use crate::Identity;

// Values of the enums `agefile_saved` and `agefile_verdict` of `agefile.h`.
const EARLY: u64 = 3;
const ZEROS: u64 = 4;
const PADDED: u64 = 6;
const WHOLE: u64 = 1;
const CUT: u64 = 2;

/// Chunks in a row that are lost. [`salvage`] has an example.
#[derive(Clone, Debug, PartialEq, Eq)]
#[non_exhaustive]
pub struct LostChunks {
    /// The numbers of the chunks, counted from 0.
    pub chunks: Range<u64>,
    /// The offsets of their plaintext, for which zeros were written.
    pub bytes: Range<u64>,
    /// Whether reads of the chunks failed. Otherwise they are damaged.
    pub is_unread: bool,
}

/// What was saved of a file. [`salvage`] has an example.
#[derive(Clone, Debug, Default, PartialEq, Eq)]
#[non_exhaustive]
pub struct Salvaged {
    /// The number of bytes written, zeros included.
    pub len: u64,
    /// The number of chunks, including a last one of which nothing was saved.
    pub chunks: u64,
    /// The chunks that are lost.
    pub lost: Vec<LostChunks>,
    /// The latest chunk that is marked as the last and cannot be it: a chunk follows it, or it is
    /// empty after other chunks.
    pub early: Option<u64>,
    /// The number of bytes of the file after the early chunk or, without an early chunk, after the
    /// last one.
    pub trailing: u64,
    /// Whether the file is known to be cut short. False if its last chunk is lost, even if up to 16
    /// bytes follow that chunk: it is then not known whether more is missing.
    pub is_cut: bool,
    /// Whether the plaintext is complete and genuine. Exactly then [`decrypt`](crate::decrypt)
    /// returns it.
    pub is_whole: bool,
}

impl Salvaged {
    /// Counts one more chunk, of `sealed` bytes in the file.
    fn add(&mut self, saved: &Report, sealed: u64, is_unread: bool) {
        let (number, start) = (self.chunks, self.len);
        (self.chunks, self.len) = (number + 1, start + saved.len);
        self.trailing += if self.early.is_some() { sealed } else { 0 };
        match (saved.place, self.lost.last_mut()) {
            (ZEROS, Some(run)) if run.chunks.end == number && run.is_unread == is_unread => {
                (run.chunks.end, run.bytes.end) = (self.chunks, self.len);
            }
            (ZEROS, _) => self.lost.push(LostChunks { chunks: number..self.chunks, bytes: start..self.len, is_unread }),
            (EARLY, _) => (self.early, self.trailing) = (Some(number), 0),
            (PADDED, _) if self.early.is_none() => self.trailing = sealed - TAG as u64 - saved.len,
            _ => {}
        }
    }

    /// Takes the library's verdict.
    fn end(&mut self, last: &Report) {
        (self.is_whole, self.is_cut) = (last.detail == WHOLE, last.detail == CUT);
    }
}

/// Saves what is left of a damaged file. Returns what was saved and what is lost.
///
/// Writes the plaintext of every chunk that opens, at its offset, and zeros for every chunk that
/// does not. Each chunk that was saved is genuine; the plaintext as a whole is genuine only if the
/// result [is whole](Salvaged::is_whole).
///
/// If a read fails and the source can seek, the chunk is lost, and salvaging continues at the next
/// one. A read that would block is an error. A pipe can be passed as a [`File`](std::fs::File),
/// which then cannot seek.
///
/// # Errors
/// Damaged chunks are not an error. A wrong key is one, as is a missing nonce or a damaged header,
/// even if a key fits it. Other errors include those of the sink, of seeks, of reads of the header
/// and, if the source cannot seek, of all reads. What was saved before the error has been written.
///
/// ```
/// # fn main() -> std::io::Result<()> {
/// # let key = agefile::Key::new([7; 32]);
/// let mut file = agefile::encrypt(&[1; 100_000], &[&key])?;
/// *file.last_mut().unwrap() ^= 1;
/// let mut plain = Vec::new();
/// let saved = agefile::salvage(std::io::Cursor::new(file), &mut plain, &[&key])?;
/// assert!(!saved.is_whole);
/// assert_eq!(saved.lost[0].bytes, 65_536..100_000);
/// assert_eq!(plain, [[1; 65_536].to_vec(), vec![0; 34_464]].concat());
/// # Ok(())
/// # }
/// ```
pub fn salvage(source: impl Read + Seek, mut sink: impl Write, identities: &[&dyn Identity]) -> io::Result<Salvaged> {
    let mut source = Skipping::new(source);
    let mut front = Front::default();
    front.read(&mut source, identities)?;
    let (mut payload, begun) = ffi::open(&front.bytes, &front.file_key()?.0)?;
    source.first = Some(source.at - (front.bytes.len() as u64 - begun.len));
    let mut source = front.bytes[begun.len as usize..].chain(source);
    let (mut saved, mut buf, mut have) = (Salvaged::default(), vec![0; SEALED_CHUNK + 1], 0);
    loop {
        // A byte after a chunk shows that it is not the last.
        fill(&mut source, &mut buf, &mut have)?;
        let len = have.min(SEALED_CHUNK);
        let is_unread = source.get_mut().1.take_unread(saved.chunks);
        let report = ffi::salvage_next(&mut payload, &mut buf[..len], have == len)?;
        sink.write_all(&buf[..report.len as usize])?;
        saved.add(&report, len as u64, is_unread);
        if have == len {
            saved.end(&report);
            sink.flush()?;
            return Ok(saved);
        }
        (buf[0], have) = (buf[SEALED_CHUNK], 1);
    }
}

/// A source that, after a failed read, returns zeros up to the next chunk, unless `skip` fails.
struct Skipping<R> {
    source: R,
    can_seek: bool,
    /// The offset of the next byte, and that of chunk 0, once it is known.
    at: u64,
    first: Option<u64>,
    /// The number of zeros that are still to be returned.
    zeros: u64,
    /// The chunks whose reads failed.
    unread: Vec<u64>,
}

impl<R: Read + Seek> Skipping<R> {
    fn new(mut source: R) -> Skipping<R> {
        let start = again(|| source.stream_position());
        let (can_seek, at) = (start.is_ok(), start.unwrap_or(0));
        Skipping { source, can_seek, at, first: None, zeros: 0, unread: Vec::new() }
    }

    /// Whether a read of this chunk failed. Forgets the chunk.
    fn take_unread(&mut self, number: u64) -> bool {
        let found = self.unread.contains(&number);
        self.unread.retain(|other| *other != number);
        found
    }

    /// Moves the source to its next chunk or its end. On failure returns `error` or a seek error.
    fn skip(&mut self, error: io::Error) -> io::Result<()> {
        // A read that would block says nothing about the disk.
        let is_retried = error.kind() == io::ErrorKind::WouldBlock;
        let first = match self.first {
            Some(first) if self.can_seek && !is_retried => first,
            _ => return Err(error),
        };
        let end = again(|| self.source.seek(SeekFrom::End(0)))?;
        if end < self.at {
            return Err(error);
        }
        let number = (self.at - first) / SEALED_CHUNK as u64;
        let next = (first + (number + 1) * SEALED_CHUNK as u64).min(end);
        self.zeros = again(|| self.source.seek(SeekFrom::Start(next)))? - self.at;
        self.unread.push(number);
        Ok(())
    }
}

impl<R: Read + Seek> Read for Skipping<R> {
    fn read(&mut self, out: &mut [u8]) -> io::Result<usize> {
        if self.zeros == 0 {
            // A read ends where its chunk does, so that a failed one costs no other chunk.
            let left = |first| SEALED_CHUNK - ((self.at - first) % SEALED_CHUNK as u64) as usize;
            let len = out.len().min(self.first.map_or(usize::MAX, left));
            match read_some(&mut self.source, &mut out[..len]) {
                Ok(count) => {
                    self.at += count as u64;
                    return Ok(count);
                }
                Err(error) => self.skip(error)?,
            }
        }
        let count = self.zeros.min(out.len() as u64);
        out[..count as usize].fill(0);
        self.zeros -= count;
        self.at += count;
        Ok(count as usize)
    }
}
