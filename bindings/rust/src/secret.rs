//! Recipients and identities.

use std::fs::File;
use std::io::{self, Read};
use std::path::Path;

use crate::ffi::{self, Report};
use crate::header::{header_of, inspect, written, Header, Stanza};
use crate::Error;

/// The size of a buffer for the stanza of a passphrase or a key.
const STANZA_ROOM: usize = 128;

/// The maximum size of a passphrase file in bytes.
const MAX_BYTES: usize = 65_536;

/// The 16 bytes from which a file's keys are derived. [`Recipient`] and [`Identity`] have examples.
#[derive(Clone, Copy, PartialEq, Eq)]
pub struct FileKey(pub [u8; 16]);

/// A recipient of a file, which wraps the file key of a new file into stanzas.
///
/// ```
/// use agefile::{Error, FileKey, Key, Recipient, Stanza};
///
/// /// A key, with a stanza that says who made the file.
/// struct Named<'a>(&'a Key);
///
/// impl Recipient for Named<'_> {
///     fn wrap(&self, file_key: &FileKey) -> Result<Vec<Stanza>, Error> {
///         let mut stanzas = self.0.wrap(file_key)?;
///         stanzas.push(Stanza { args: vec!["made-by".into(), "alice".into()], body: vec![] });
///         Ok(stanzas)
///     }
/// }
///
/// # fn main() -> std::io::Result<()> {
/// let key = Key::new([7; 32]);
/// let file = agefile::encrypt(b"text", &[&Named(&key)])?;
/// assert_eq!(agefile::inspect(&file)?.stanzas().len(), 2);
/// assert_eq!(agefile::decrypt(&file, &[&key])?, b"text");
/// # Ok(())
/// # }
/// ```
pub trait Recipient {
    /// Wraps this file key. Returns stanzas for the header, in order.
    fn wrap(&self, file_key: &FileKey) -> Result<Vec<Stanza>, Error>;
}

/// An identity, which finds the file key of a file.
///
/// ```
/// # fn main() -> std::io::Result<()> {
/// use agefile::{Error, FileKey, Header, Identity, Key};
///
/// /// Keys with names. A second stanza of the header names the key to try.
/// struct Ring(Vec<(String, Key)>);
///
/// impl Identity for Ring {
///     fn unlock(&self, header: &Header) -> Result<Option<FileKey>, Error> {
///         let name = header.stanzas().iter().find(|stanza| stanza.args[0] == "made-for").map(|stanza| &stanza.args[1]);
///         let found = self.0.iter().find(|(known, _)| Some(known) == name);
///         found.map_or(Ok(None), |(_, key)| key.unlock(header))
///     }
/// }
///
/// # struct Named<'a>(&'a Key);
/// # impl agefile::Recipient for Named<'_> {
/// #     fn wrap(&self, file_key: &FileKey) -> Result<Vec<agefile::Stanza>, Error> {
/// #         let mut stanzas = self.0.wrap(file_key)?;
/// #         stanzas.push(agefile::Stanza { args: vec!["made-for".into(), "alice".into()], body: vec![] });
/// #         Ok(stanzas)
/// #     }
/// # }
/// # let key = Key::new([7; 32]);
/// # let file = agefile::encrypt(b"text", &[&Named(&key)])?;
/// let ring = Ring(vec![("alice".into(), key)]);
/// assert_eq!(agefile::decrypt(&file, &[&ring])?, b"text");
/// # Ok(())
/// # }
/// ```
pub trait Identity {
    /// Returns the file key that one of the header's stanzas holds, or `None` if no stanza is for
    /// this identity. The caller then checks the header's MAC under the key.
    ///
    /// # Errors
    /// [`Error::WrongKey`] if stanzas are of this identity's type but none opens: the next identity
    /// is tried, as after [`Error::NoMatch`]. Any other error ends the search.
    fn unlock(&self, header: &Header) -> Result<Option<FileKey>, Error>;
}

/// A passphrase, as a recipient and as an identity: any bytes. An empty passphrase can open files,
/// but not make them ([`Error::EmptyPassphrase`]).
///
/// ```
/// # fn main() -> std::io::Result<()> {
/// let passphrase = agefile::Passphrase::new("correct horse").with_work(10);
/// let file = agefile::encrypt(b"text", &[&passphrase])?;
/// assert_eq!(agefile::decrypt(&file, &[&passphrase])?, b"text");
/// # Ok(())
/// # }
/// ```
#[derive(Clone)]
pub struct Passphrase {
    text: Vec<u8>,
    work: u8,
    max_work: u8,
    /// Whether it comes from a file, and begins or ends with bytes that nobody types.
    is_untyped: bool,
}

/// A secret key of 32 bytes, as a recipient and as an identity. Only `agep` and `libagefile` open
/// files encrypted with it.
///
/// ```
/// # fn main() -> std::io::Result<()> {
/// let (mine, recovery) = (agefile::Key::new([7; 32]), agefile::Key::new([8; 32]));
/// let file = agefile::encrypt(b"text", &[&mine, &recovery])?;
/// assert_eq!(agefile::decrypt(&file, &[&recovery])?, b"text");
/// # Ok(())
/// # }
/// ```
#[derive(Clone)]
pub struct Key([u8; 32]);

/// The bytes of a file, or `None` if it has more than `most`.
fn read_at_most(path: impl AsRef<Path>, most: usize) -> io::Result<Option<Vec<u8>>> {
    let mut bytes = Vec::new();
    File::open(path)?.take(most as u64 + 1).read_to_end(&mut bytes)?;
    Ok(Some(bytes).filter(|bytes| bytes.len() <= most))
}

impl Passphrase {
    /// Makes a passphrase with the usual work factors: 18 for new files, and at most 22 to open
    /// files.
    pub fn new(text: impl Into<Vec<u8>>) -> Passphrase {
        Passphrase { text: text.into(), work: 18, max_work: 22, is_untyped: false }
    }

    /// Reads a passphrase file of at most 65,536 bytes as `agep -p` does, and drops one LF at its
    /// end. A passphrase that then ends in CR or LF, or begins with a byte-order mark, can open
    /// files but not make them ([`Error::UntypedPassphrase`]), because nobody types such bytes.
    ///
    /// # Errors
    /// That of the system, or `InvalidInput` if the file has more bytes.
    pub fn from_file(path: impl AsRef<Path>) -> io::Result<Passphrase> {
        let too_long = || io::Error::new(io::ErrorKind::InvalidInput, "passphrase file is too long");
        let mut text = read_at_most(path, MAX_BYTES)?.ok_or_else(too_long)?;
        if text.last() == Some(&b'\n') {
            text.pop();
        }
        let marks = [&b"\xef\xbb\xbf"[..], b"\xff\xfe", b"\xfe\xff"];
        let is_marked = marks.iter().any(|mark| text.starts_with(mark));
        let is_untyped = is_marked || text.ends_with(b"\r") || text.ends_with(b"\n");
        Ok(Passphrase { is_untyped, ..Passphrase::new(text) })
    }

    /// Sets the work factor of new files, 1 to 30. Each attempt to open one takes 2^work KiB of
    /// memory.
    pub fn with_work(mut self, work: u8) -> Passphrase {
        self.work = work;
        self
    }

    /// Sets the largest work factor that is accepted from a file, 1 to 30.
    pub fn with_max_work(mut self, max_work: u8) -> Passphrase {
        self.max_work = max_work;
        self
    }
}

impl Key {
    /// Makes a key of these bytes.
    pub fn new(key: [u8; 32]) -> Key {
        Key(key)
    }

    /// Reads a key file as `agep -k` does: 32 raw bytes.
    ///
    /// # Errors
    /// That of the system, or `InvalidInput` if the file has another length.
    pub fn from_file(path: impl AsRef<Path>) -> io::Result<Key> {
        match read_at_most(path, 32)?.map(<[u8; 32]>::try_from) {
            Some(Ok(key)) => Ok(Key(key)),
            _ => Err(io::Error::new(io::ErrorKind::InvalidInput, "key file must hold 32 bytes")),
        }
    }
}

/// The stanza of a text, which the library parses within a header.
fn stanza_of(text: &[u8], file_key: &FileKey) -> Result<Vec<Stanza>, Error> {
    Ok(inspect(&header_of(text, file_key)?)?.stanzas().to_vec())
}

fn fresh_salt() -> Result<[u8; 16], Error> {
    ffi::random().map_err(|_| Error::Refused)
}

/// The result of unlocking, where no match is not an error.
fn found(result: Result<([u8; 16], Report), Error>) -> Result<Option<FileKey>, Error> {
    match result {
        Ok((file_key, _)) => Ok(Some(FileKey(file_key))),
        Err(Error::NoMatch) => Ok(None),
        Err(error) => Err(error),
    }
}

impl Recipient for Passphrase {
    fn wrap(&self, file_key: &FileKey) -> Result<Vec<Stanza>, Error> {
        if self.is_untyped {
            return Err(Error::UntypedPassphrase);
        }
        let salt = fresh_salt()?;
        let text = written(STANZA_ROOM, |out| ffi::wrap_passphrase(&file_key.0, &self.text, self.work, &salt, out))?;
        stanza_of(&text, file_key)
    }
}

impl Identity for Passphrase {
    fn unlock(&self, header: &Header) -> Result<Option<FileKey>, Error> {
        found(ffi::unlock_passphrase(header.text(), &self.text, self.max_work))
    }
}

impl Recipient for Key {
    fn wrap(&self, file_key: &FileKey) -> Result<Vec<Stanza>, Error> {
        let salt = fresh_salt()?;
        let text = written(STANZA_ROOM, |out| ffi::wrap_key(&file_key.0, &self.0, &salt, out))?;
        stanza_of(&text, file_key)
    }
}

impl Identity for Key {
    fn unlock(&self, header: &Header) -> Result<Option<FileKey>, Error> {
        found(ffi::unlock_key(header.text(), &self.0))
    }
}

show!(FileKey {});
show!(Passphrase {});
show!(Key {});
