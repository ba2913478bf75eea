//! What the tests share: plaintexts, files, and a model of devices. No test uses all of it.
#![allow(dead_code)]

use std::io::{self, Cursor, ErrorKind, Read, Seek, SeekFrom, Write};
use std::ops::Range;

use agefile::{Error, Key};

pub const TEXT: usize = 65536;
pub const SEALED: usize = 65552;

pub fn key() -> Key {
    Key::new([7; 32])
}

pub fn text(len: usize) -> Vec<u8> {
    (0..len).map(|i| (i * 7 + i / 251) as u8).collect()
}

/// The age file of these bytes, and where its chunks begin.
pub fn sealed(plain: &[u8]) -> (Vec<u8>, usize) {
    let file = agefile::encrypt(plain, &[&key()]).unwrap();
    let front = agefile::inspect(&file).unwrap().text().len() + 16;
    (file, front)
}

pub fn fault(error: io::Error) -> Error {
    *error.get_ref().and_then(|it| it.downcast_ref::<Error>()).expect("an error of the library")
}

/// The base64 of some bytes without padding.
pub fn base64(bytes: &[u8]) -> String {
    const DIGITS: &[u8; 64] = b"ABCDEFGHIJKLMNOPQRSTUVWXYZabcdefghijklmnopqrstuvwxyz0123456789+/";
    let bit = |at: usize| bytes.get(at / 8).map_or(0, |byte| byte >> (7 - at % 8) & 1) as usize;
    let digit = |first: usize| (first..first + 6).fold(0, |digit, at| digit << 1 | bit(at));
    (0..bytes.len() * 8).step_by(6).map(|first| DIGITS[digit(first)] as char).collect()
}

#[derive(Clone, Copy, Debug, PartialEq, Eq)]
pub enum Call {
    Read,
    Write,
    Seek,
    Flush,
}

/// How a call fails: with an error of this kind; with `None` a read or a write returns more than it
/// was asked for, and a seek returns 0.
pub type Failure = Option<ErrorKind>;

/// The calls of one kind that fail: every `step`th of `numbers`, which count the calls from 0.
#[derive(Clone, Debug)]
pub struct Fault {
    pub call: Call,
    pub numbers: Range<usize>,
    pub step: usize,
    pub failure: Failure,
}

/// A file, a pipe or a disk, as a source or as a sink.
#[derive(Clone, Debug, Default)]
pub struct Device {
    pub file: Cursor<Vec<u8>>,
    /// The most bytes that one call reads or writes.
    pub most: usize,
    pub faults: Vec<Fault>,
    /// These bytes cannot be read. A read that begins before them and reaches them ends there or,
    /// with `all_or_none`, fails.
    pub bad: Vec<(usize, usize)>,
    pub all_or_none: bool,
    /// The number of calls of each kind, the file's position at each call that `faults` made fail,
    /// and the file's length at the last flush.
    pub calls: [usize; 4],
    pub failed: Vec<usize>,
    pub flushed: usize,
}

impl Device {
    pub fn new(bytes: impl Into<Vec<u8>>) -> Device {
        Device { file: Cursor::new(bytes.into()), most: usize::MAX, ..Device::default() }
    }

    /// At most so many bytes a call.
    pub fn by(self, most: usize) -> Device {
        Device { most, ..self }
    }

    pub fn failing(mut self, call: Call, numbers: Range<usize>, failure: impl Into<Failure>) -> Device {
        self.faults.push(Fault { call, numbers, step: 1, failure: failure.into() });
        self
    }

    /// Would block before each read that succeeds, from this one on.
    pub fn blocking(mut self, from: usize) -> Device {
        let failure = Some(ErrorKind::WouldBlock);
        self.faults.push(Fault { call: Call::Read, numbers: from..usize::MAX, step: 2, failure });
        self
    }

    pub fn contents(&self) -> &[u8] {
        self.file.get_ref()
    }

    /// Counts a call on `len` bytes. If it must fail, returns its error or the wrong count for it.
    fn called(&mut self, call: Call, len: usize) -> io::Result<Option<usize>> {
        let number = self.calls[call as usize];
        self.calls[call as usize] += 1;
        let fails = |fault: &&Fault| {
            let Fault { numbers, step, .. } = fault;
            fault.call == call && numbers.contains(&number) && (number - numbers.start) % step == 0
        };
        let failure = self.faults.iter().find(fails).map(|fault| fault.failure);
        self.failed.extend(failure.map(|_| self.file.position() as usize));
        match failure {
            Some(Some(kind)) => Err(io::Error::new(kind, format!("{call:?} {number}"))),
            Some(None) => Ok(Some(len + 1)),
            None => Ok(None),
        }
    }
}

impl Read for Device {
    fn read(&mut self, out: &mut [u8]) -> io::Result<usize> {
        if let Some(count) = self.called(Call::Read, out.len())? {
            return Ok(count);
        }
        let at = self.file.position() as usize;
        let len = out.len().min(self.most);
        let reached = if self.all_or_none { at + len } else { at + 1 };
        if self.bad.iter().any(|bad| bad.0 < reached && at < bad.1) {
            return Err(io::Error::new(ErrorKind::Other, "bad block"));
        }
        let next = self.bad.iter().map(|bad| bad.0).filter(|start| *start > at).min().unwrap_or(usize::MAX);
        self.file.read(&mut out[..len.min(next - at)])
    }
}

impl Write for Device {
    fn write(&mut self, bytes: &[u8]) -> io::Result<usize> {
        match self.called(Call::Write, bytes.len())? {
            Some(count) => Ok(count),
            None => self.file.write(&bytes[..bytes.len().min(self.most)]),
        }
    }

    fn flush(&mut self) -> io::Result<()> {
        self.called(Call::Flush, 0)?;
        self.flushed = self.contents().len();
        Ok(())
    }
}

impl Seek for Device {
    fn seek(&mut self, to: SeekFrom) -> io::Result<u64> {
        match self.called(Call::Seek, 0)? {
            Some(_) => Ok(0),
            None => self.file.seek(to),
        }
    }
}
