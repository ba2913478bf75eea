//! Headers and their stanzas.

use crate::ffi::{self, Report, StanzaSummary};
use crate::{Error, FileKey, Identity, Recipient};

/// An entry of a header, usually a wrapped file key. [`Recipient`] has an example.
#[derive(Clone, Debug, PartialEq, Eq)]
pub struct Stanza {
    /// The type, then the arguments.
    pub args: Vec<String>,
    /// The body, decoded from its base64.
    pub body: Vec<u8>,
}

/// The contents of a header. The MAC is not verified.
///
/// ```
/// # fn main() -> std::io::Result<()> {
/// # let passphrase = agefile::Passphrase::new("correct horse").with_work(2);
/// let file = agefile::encrypt(b"text", &[&passphrase])?;
/// let header = agefile::inspect(&file)?;
/// assert!(file.starts_with(header.text()));
/// assert_eq!(header.stanzas()[0].args[0], "scrypt");
/// # Ok(())
/// # }
/// ```
#[derive(Clone, Debug, PartialEq, Eq)]
pub struct Header {
    text: Vec<u8>,
    stanzas: Vec<Stanza>,
    mac: [u8; 32],
}

impl Header {
    /// Returns the stanzas, in order.
    pub fn stanzas(&self) -> &[Stanza] {
        &self.stanzas
    }

    /// Returns the MAC of the header, which is not verified.
    pub fn mac(&self) -> &[u8; 32] {
        &self.mac
    }

    /// Returns the header's text, up to and including the LF after its MAC.
    pub fn text(&self) -> &[u8] {
        &self.text
    }
}

/// Reads the header of a file. `front` is any beginning of the file that contains it. Does not
/// verify its MAC.
pub fn inspect(front: &[u8]) -> Result<Header, Error> {
    let (summary, _) = ffi::inspect(front)?;
    let text = front[..summary.header_len as usize].to_vec();
    let mut sizes = vec![StanzaSummary::default(); summary.stanzas as usize];
    let mut room = vec![0; text.len()];
    ffi::stanzas(&text, &mut sizes, &mut room)?;
    let mut rest = &room[..];
    let stanzas = sizes
        .iter()
        .map(|size| {
            let (args, behind) = rest.split_at(size.args_len as usize);
            let (body, behind) = behind.split_at(size.body_len as usize);
            rest = behind;
            let args = String::from_utf8_lossy(args).split(' ').map(String::from).collect();
            Stanza { args, body: body.to_vec() }
        })
        .collect();
    Ok(Header { text, stanzas, mac: summary.mac })
}

/// Returns what a call writes to a buffer of this size.
pub(crate) fn written(room: usize, call: impl FnOnce(&mut [u8]) -> Result<Report, Error>) -> Result<Vec<u8>, Error> {
    let mut out = vec![0; room];
    let report = call(&mut out)?;
    out.truncate(report.len as usize);
    Ok(out)
}

/// The text of a stanza in a header.
fn stanza_text(stanza: &Stanza) -> Result<Vec<u8>, Error> {
    if stanza.args.iter().any(|arg| arg.contains(' ')) {
        return Err(Error::BadArguments);
    }
    let args = stanza.args.join(" ");
    // Each 48 bytes of a body become 64 characters and an LF.
    let room = args.len() + stanza.body.len() / 48 * 65 + 80;
    written(room, |out| ffi::wrap(args.as_bytes(), &stanza.body, out))
}

/// The text of the stanzas into which the recipients wrap a file key, in order.
pub(crate) fn stanzas_text(recipients: &[&dyn Recipient], file_key: &FileKey) -> Result<Vec<u8>, Error> {
    let mut text = Vec::new();
    for recipient in recipients {
        for stanza in recipient.wrap(file_key)? {
            text.extend(stanza_text(&stanza)?);
        }
    }
    Ok(text)
}

/// The header for a text of stanzas, under a file key.
pub(crate) fn header_of(stanzas: &[u8], file_key: &FileKey) -> Result<Vec<u8>, Error> {
    written(stanzas.len() + 128, |out| ffi::header(stanzas, &file_key.0, out))
}

/// The file key that the first matching identity finds.
pub(crate) fn unlock(header: &Header, identities: &[&dyn Identity]) -> Result<FileKey, Error> {
    let is_passphrase = |stanza: &Stanza| stanza.args[0] == "scrypt";
    if header.stanzas.len() > 1 && header.stanzas.iter().any(is_passphrase) {
        return Err(Error::MixedPassphrase);
    }
    let mut missed = Error::NoMatch;
    for identity in identities {
        match identity.unlock(header) {
            Ok(Some(file_key)) => return Ok(file_key),
            Ok(None) | Err(Error::NoMatch) => {}
            Err(Error::WrongKey) => missed = Error::WrongKey,
            Err(error) => return Err(error),
        }
    }
    Err(missed)
}
