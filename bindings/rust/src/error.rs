//! Errors.

use std::fmt;
use std::io;

use crate::ffi::Report;

/// Why a file or a call was refused. Chunks are counted from 0, header lines from 1.
///
/// ```
/// # fn main() -> std::io::Result<()> {
/// # let key = agefile::Key::new([7; 32]);
/// let error = agefile::decrypt(b"hello", &[&key]).unwrap_err();
/// assert_eq!((error, error.to_string().as_str()), (agefile::Error::NotAge, "not an age file"));
///
/// // Within an error of a stream:
/// let error = agefile::Reader::new(&b"hello"[..], &[&key]).unwrap_err();
/// let reason = error.get_ref().and_then(|reason| reason.downcast_ref());
/// assert_eq!(reason, Some(&agefile::Error::NotAge));
/// # Ok(())
/// # }
/// ```
#[derive(Clone, Copy, Debug, PartialEq, Eq)]
#[non_exhaustive]
pub enum Error {
    // generated: variants of errors
    /// The first bytes are not a prefix of the version line.
    NotAge,
    /// The lines up to this one cannot begin a header. The version line is line 1.
    BadLine(u64),
    /// The input ends within its header.
    HeaderTruncated,
    /// The header, read or to be written, is larger than the limit.
    HeaderTooLarge,
    /// A stanza of type `scrypt` is not the only stanza (C2SP `age.md`, "The scrypt recipient
    /// type").
    MixedPassphrase,
    /// No stanza is of the type of any identity.
    NoMatch,
    /// There are stanzas of an identity's type, but none of them opens: the passphrase or key is
    /// wrong.
    WrongKey,
    /// A stanza of an identity's type is malformed.
    Malformed(Part),
    /// The header's MAC is not that of its stanzas under the file key.
    BadMac,
    /// Fewer than 16 bytes, the payload's nonce, follow the header.
    NonceTruncated,
    /// This sealed chunk, the last, is shorter than a tag, 16 bytes.
    ChunkShort(u64),
    /// This sealed chunk, the last and not the first, has only a tag, 16 bytes.
    EmptyFinal(u64),
    /// No plaintext seals to this chunk at its number: its tag is wrong.
    BadChunk(u64),
    /// The payload, read or to be written, has more chunks than the limit.
    TooManyChunks,
    /// An allocation was refused, or a caller's recipient or identity returned out of memory.
    OutOfMemory,
    /// The recipients returned no stanza.
    NoRecipients,
    // end of variants of errors
    /// A passphrase for a new file is empty: anyone could open the file.
    EmptyPassphrase,
    /// The passphrase of a passphrase file, for a new file, ends in CR or LF, or begins with a
    /// byte-order mark: whoever types it could not open the file.
    UntypedPassphrase,
    /// A work factor is not 1 to 30.
    WorkFactor,
    /// A stanza has no argument, or one that is empty or has a character other than `!` to `~`.
    BadArguments,
    /// A caller's own recipient or identity refused, or the system returned no random salt.
    Refused,
    /// An earlier write failed, so the file cannot be completed.
    Incomplete,
    /// The library returned this code, which this crate does not know or expect.
    Other(u32),
}

/// A part of a stanza.
///
/// ```
/// # fn main() -> std::io::Result<()> {
/// use agefile::{Error, Part, Passphrase};
///
/// let file = agefile::encrypt(b"text", &[&Passphrase::new("correct horse").with_work(2)])?;
/// let error = agefile::decrypt(&file, &[&Passphrase::new("correct horse").with_max_work(1)]);
/// assert_eq!(error, Err(Error::Malformed(Part::WorkFactorTooHigh)));
/// # Ok(())
/// # }
/// ```
#[derive(Clone, Copy, Debug, PartialEq, Eq)]
#[non_exhaustive]
pub enum Part {
    /// The number of arguments.
    ArgumentCount,
    /// The salt.
    Salt,
    /// The work factor.
    WorkFactor,
    /// The work factor is above the identity's maximum.
    WorkFactorTooHigh,
    /// The length of the body.
    BodyLength,
    /// Another part.
    Other,
}

impl Error {
    /// The error of a code of `agefile.h`.
    pub(crate) fn of(code: u32, report: &Report) -> Error {
        let place = report.place;
        match code {
            // generated: codes of errors
            1 => Error::NotAge,
            2 => Error::BadLine(place),
            3 => Error::HeaderTruncated,
            4 => Error::HeaderTooLarge,
            5 => Error::MixedPassphrase,
            6 => Error::NoMatch,
            7 => Error::WrongKey,
            8 => Error::Malformed(Part::of(report.detail)),
            9 => Error::BadMac,
            10 => Error::NonceTruncated,
            11 => Error::ChunkShort(place),
            12 => Error::EmptyFinal(place),
            13 => Error::BadChunk(place),
            14 => Error::TooManyChunks,
            17 => Error::OutOfMemory,
            18 => Error::NoRecipients,
            22 => Error::WorkFactor,
            25 => Error::BadArguments,
            26 => Error::EmptyPassphrase,
            // end of codes of errors
            _ => Error::Other(code),
        }
    }

    fn kind(self) -> io::ErrorKind {
        match self {
            Error::HeaderTruncated | Error::NonceTruncated => io::ErrorKind::UnexpectedEof,
            Error::Refused | Error::Incomplete => io::ErrorKind::Other,
            Error::OutOfMemory => io::ErrorKind::OutOfMemory,
            Error::NoMatch | Error::WrongKey => io::ErrorKind::InvalidInput,
            Error::NoRecipients | Error::EmptyPassphrase => io::ErrorKind::InvalidInput,
            Error::UntypedPassphrase => io::ErrorKind::InvalidInput,
            Error::WorkFactor | Error::BadArguments => io::ErrorKind::InvalidInput,
            _ => io::ErrorKind::InvalidData,
        }
    }
}

impl Part {
    fn of(detail: u64) -> Part {
        match detail {
            // generated: details of parts
            1 => Part::ArgumentCount,
            2 => Part::Salt,
            3 => Part::WorkFactor,
            4 => Part::WorkFactorTooHigh,
            5 => Part::BodyLength,
            // end of details of parts
            _ => Part::Other,
        }
    }
}

impl fmt::Display for Part {
    fn fmt(&self, f: &mut fmt::Formatter<'_>) -> fmt::Result {
        f.write_str(match self {
            // generated: texts of parts
            Part::ArgumentCount => "argument count",
            Part::Salt => "salt",
            Part::WorkFactor => "work factor",
            Part::WorkFactorTooHigh => "work factor is too high",
            Part::BodyLength => "body length",
            // end of texts of parts
            Part::Other => "other",
        })
    }
}

impl fmt::Display for Error {
    fn fmt(&self, f: &mut fmt::Formatter<'_>) -> fmt::Result {
        match self {
            // generated: texts of errors
            Error::NotAge => write!(f, "not an age file"),
            Error::BadLine(place) => write!(f, "bad header line {place}"),
            Error::HeaderTruncated => write!(f, "header is cut short"),
            Error::HeaderTooLarge => write!(f, "header is too large"),
            Error::MixedPassphrase => write!(f, "a passphrase stanza must stand alone"),
            Error::NoMatch => write!(f, "no key fits this file"),
            Error::WrongKey => write!(f, "wrong passphrase or key"),
            Error::Malformed(part) => write!(f, "malformed stanza: {part}"),
            Error::BadMac => write!(f, "header check failed"),
            Error::NonceTruncated => write!(f, "payload nonce is cut short"),
            Error::ChunkShort(place) => write!(f, "chunk {place} is cut short"),
            Error::EmptyFinal(place) => write!(f, "chunk {place} is empty"),
            Error::BadChunk(place) => write!(f, "chunk {place} is damaged"),
            Error::TooManyChunks => write!(f, "too many chunks"),
            Error::OutOfMemory => write!(f, "out of memory"),
            Error::NoRecipients => write!(f, "no recipients"),
            Error::WorkFactor => write!(f, "work factor must be 1 to 30"),
            Error::BadArguments => write!(f, "stanza arguments must be visible ASCII, one space apart"),
            Error::EmptyPassphrase => write!(f, "passphrase is empty"),
            // end of texts of errors
            Error::UntypedPassphrase => {
                write!(f, "passphrase ends in CR or LF, or begins with a byte-order mark")
            }
            Error::Refused => write!(f, "recipient refused"),
            Error::Incomplete => write!(f, "an earlier write failed"),
            Error::Other(code) => write!(f, "code {code}"),
        }
    }
}

impl std::error::Error for Error {}

impl From<Error> for io::Error {
    fn from(error: Error) -> io::Error {
        io::Error::new(error.kind(), error)
    }
}
